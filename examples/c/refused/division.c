/* Signed division; -mcpu=v4 has it, from clang 18 on. */
#include <fc.h>
fc_u64 run(const struct fc_request *request, fc_u64 *vars, fc_u64 length)
{
    fc_i64 degrees = (signed char)request->payload[0];
#ifndef MENDED
    degrees /= 7;
#else
    degrees = fc_sdiv(degrees, 7);
#endif
    vars[0] = degrees;
    return FC_OK;
}
