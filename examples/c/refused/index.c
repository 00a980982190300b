/* An int is compared as a signed number, which proves nothing, or in a copy of the register. */
#include <fc.h>
fc_u64 run(const struct fc_request *request, fc_u64 *vars, fc_u64 length)
{
#ifndef MENDED
    int i = var_get(0);
    if (i >= 0 && i < 1024)
        reply_byte(request->payload[i]);
#else
    fc_u64 i = var_get(0);
    if (i < 1024)
        reply_byte(request->payload[i]);
#endif
    return FC_OK;
}
