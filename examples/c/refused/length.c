/* A number of two bytes from memory may be up to 65,535, whatever its meaning; R3 is known to be at most 1,024. */
#include <fc.h>
fc_u64 run(const struct fc_request *request, fc_u64 *vars, fc_u64 length)
{
#ifndef MENDED
    reply_put(request->payload, request->length);
#else
    reply_put(request->payload, length);
#endif
    return FC_OK;
}
