/* ..stack.c:..: in function run ..
   in C: local arrays of 256 bytes at most, and pieces put into the reply as they come */
#include <fc.h>
fc_u64 run(const struct fc_request *request, fc_u64 *vars, fc_u64 length)
{
    fc_u8 copy[600];
    for (int i = 0; i < 600; i++)
        copy[i] = payload_byte(i);
    for (int i = 599; i >= 0; i--)
        reply_byte(copy[i]);
    return FC_OK;
}
