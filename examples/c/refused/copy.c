/* A copy of a length that isn't constant. */
#include <fc.h>
fc_u64 run(const struct fc_request *request, fc_u64 *vars, fc_u64 length)
{
    _Alignas(8) fc_u8 copy[32];
    if (length > sizeof copy)
        return FC_BAD_REQUEST;
#ifndef MENDED
    __builtin_memcpy(copy, request->payload, length);
#else
    __builtin_memcpy(copy, request->payload, sizeof copy);
#endif
    copy[0] ^= 32;
    reply_put(copy, length);
    return FC_OK;
}
