/* The payload backwards: a decreasing counter, from a number that isn't constant. */
#include <fc.h>
fc_u64 run(const struct fc_request *request, fc_u64 *vars, fc_u64 length)
{
    for (fc_u64 i = length; i > 0; i--)
        reply_byte(payload_byte(i - 1));
    return FC_OK;
}
