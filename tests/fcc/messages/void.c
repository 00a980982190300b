/* ..void.c: run returns nothing: `fc_u64 run(..)`, and `return FC_OK;` on each way out */
#include <fc.h>
void run(const struct fc_request *request, fc_u64 *vars, fc_u64 length)
{
    reply_put("on", 2);
}
