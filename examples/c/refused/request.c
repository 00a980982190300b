/* The request is read only. */
#include <fc.h>
fc_u64 run(const struct fc_request *request, fc_u64 *vars, fc_u64 length)
{
#ifndef MENDED
    ((struct fc_request *)request)->payload[0] ^= 32;
    reply_put(request->payload, 1);
#else
    reply_byte(request->payload[0] ^ 32);
#endif
    return FC_OK;
}
