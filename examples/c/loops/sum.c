/* The sum of the payload's first 64 bytes. */
#include <fc.h>
fc_u64 run(const struct fc_request *request, fc_u64 *vars, fc_u64 length)
{
    fc_u64 sum = 0;
    for (fc_u64 i = 0; i < 64; i++) {
        fc_u64 byte = payload_byte(i);
        if (byte < 256)
            sum += byte;
    }
    reply_byte(sum);
    return FC_OK;
}
