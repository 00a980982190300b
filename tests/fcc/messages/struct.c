/* ..struct.c:..: in function both ..
   in C: a pointer to the result as an argument, or FC_INLINE; no `...` */
#include <fc.h>
struct pair { fc_u64 a, b, c; };
FC_FUNCTION struct pair both(fc_u64 x)
{
    return (struct pair){ x, x + 1, x + 2 };
}
fc_u64 run(const struct fc_request *request, fc_u64 *vars, fc_u64 length)
{
    struct pair it = both(length);
    reply_byte(it.a + it.b);
    return FC_OK;
}
