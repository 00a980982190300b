/* The mean of the variables' eight words. */
#include <fc.h>
fc_u64 run(const struct fc_request *request, fc_u64 *vars, fc_u64 length)
{
    fc_u64 sum = 0;
#pragma clang loop unroll(disable)
    for (fc_u64 i = 0; i < 8; i++)
        sum += var_get(i);
    reply_byte(sum / 8);
    return FC_OK;
}
