/* ..V17 slot ..
   ..helper.c:..: return other();
   in C: the helpers are those of fc.h, of the numbers 1 to 7 */
#include <fc.h>
fc_u64 run(const struct fc_request *request, fc_u64 *vars, fc_u64 length)
{
    fc_u64 (*const other)(void) = (fc_u64 (*)(void))9;
    return other();
}
