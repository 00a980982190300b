/* A sum like sum.c, by an index: each iteration makes a pointer, so the iterations are written out. */
#include <fc.h>
fc_u64 run(const struct fc_request *request, fc_u64 *vars, fc_u64 length)
{
    fc_u64 sum = 0;
#pragma clang loop unroll(disable)
    for (fc_u64 i = 0; i < 64; i++)
        sum += request->payload[i];
    reply_byte(sum);
    return FC_OK;
}
