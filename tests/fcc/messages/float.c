/* ..float.c:..: in function run ..
   in C: whole numbers, as tenths in place of a fraction: there is no float */
#include <fc.h>
fc_u64 run(const struct fc_request *request, fc_u64 *vars, fc_u64 length)
{
    float x = request->payload[0];
    reply_byte((int)(x * 1.5f));
    return FC_OK;
}
