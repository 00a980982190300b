/* ..: a loop of which nothing tells that it has at most 1024 turns (one of 2 such loops)
   ..bounds.c:..: for (fc_u64 i = 0; i < n; i++)
   ..bounds.c:..: for (fc_u64 i = 0; i < m; i++)
   in C: count up to a constant, `for (fc_u64 i = 0; i < 64; i++)`, and leave it before that by `break`
   or: fcc --turns 20, with a number of yours: a run in which a loop takes more turns is answered 5.00 */
#include <fc.h>
fc_u64 run(const struct fc_request *request, fc_u64 *vars, fc_u64 length)
{
    fc_u64 n = var_get(0), m = var_get(1);
    for (fc_u64 i = 0; i < n; i++)
        reply_byte('#');
    for (fc_u64 i = 0; i < m; i++)
        reply_byte('-');
    return FC_OK;
}
