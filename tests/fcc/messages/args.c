/* ..args.c:..: in function six ..
   in C: at most five arguments: a pointer to a struct, or FC_INLINE */
#include <fc.h>
FC_FUNCTION fc_u64 six(fc_u64 a, fc_u64 b, fc_u64 c, fc_u64 d, fc_u64 e, fc_u64 f)
{
    reply_byte(a + b);
    return c + d * e - f;
}
fc_u64 run(const struct fc_request *request, fc_u64 *vars, fc_u64 length)
{
    reply_byte(six(length, var_get(0), var_get(1), var_get(2), var_get(3), var_get(4)));
    return FC_OK;
}
