/* A function returns a number, so it can't return a pointer; FC_INLINE makes a function that isn't called. */
#include <fc.h>
#ifdef MENDED
#undef FC_FUNCTION
#define FC_FUNCTION FC_INLINE
#endif
FC_FUNCTION const fc_u8 *behind_head(const struct fc_request *request) { return request->payload + 4; }
fc_u64 run(const struct fc_request *request, fc_u64 *vars, fc_u64 length)
{
    reply_put(behind_head(request), 8);
    return FC_OK;
}
