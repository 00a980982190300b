/* A variable determines the number of iterations: no bound is known. */
#include <fc.h>
fc_u64 run(const struct fc_request *request, fc_u64 *vars, fc_u64 length)
{
    fc_u64 sum = 0, n = vars[0];
#ifndef MENDED
    for (fc_u64 i = 0; i < n; i++)
#else
    for (fc_u64 i = 0; i < n && i < 64; i++)
#endif
        sum += payload_byte(i);
    reply_byte(sum);
    return FC_OK;
}
