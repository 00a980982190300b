/* ..unanswered.c:6:1: error: non-void function does not return a value in all control paths.. */
#include <fc.h>
fc_u64 run(const struct fc_request *request, fc_u64 *vars, fc_u64 length)
{
    if (request->method == FC_GET) return FC_OK;
}
