/* The position of the payload's first byte 4, or 100: the count is needed after the loop. */
#include <fc.h>
fc_u64 run(const struct fc_request *request, fc_u64 *vars, fc_u64 length)
{
    fc_u64 i;
    for (i = 0; i < 100; i++)
        if (payload_byte(i) == 4)
            break;
    reply_put(&i, 8);
    return FC_OK;
}
