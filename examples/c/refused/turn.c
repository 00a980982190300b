/* Each iteration makes a pointer into the table, and there are too many to be written out. A function makes its pointers in its own frame. */
#include <fc.h>
static const fc_u8 bits[16] = {0, 1, 1, 2, 1, 2, 2, 3, 1, 2, 2, 3, 2, 3, 3, 4};
FC_FUNCTION fc_u64 look_up(fc_u64 i) { return fc_at(bits, i & 15); }
fc_u64 run(const struct fc_request *request, fc_u64 *vars, fc_u64 length)
{
    fc_u64 sum = 0;
    for (fc_u64 i = 0; i < length; i++) {
        fc_u64 byte = payload_byte(i);
#ifndef MENDED
        sum += bits[byte & 15] + bits[byte >> 4 & 15];
#else
        sum += look_up(byte) + look_up(byte >> 4);
#endif
    }
    reply_byte(sum);
    return FC_OK;
}
