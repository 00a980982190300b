/* ..put: it calls itself, directly or not, and there is no recursion
   ..recursion.c:..: put(n * 3 + 1, k);
   in C: a loop; tools/fcc writes out `if (n >= 10) put(n / 10);` of a static function that calls itself at one place */
#include <fc.h>
static void put(fc_u64 n, fc_u64 k)
{
    reply_byte(n);
    if (n != k)
        put(n * 3 + 1, k);
    reply_byte(k);
}
fc_u64 run(const struct fc_request *request, fc_u64 *vars, fc_u64 length)
{
    put(length, 1);
    return FC_OK;
}
