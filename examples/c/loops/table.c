/* The CRC of the payload's first 64 bytes (reflected, polynomial 0x1021), four bits at a time. The
   table is in a function that gets the index, so no iteration makes a pointer. */
#include <fc.h>
static const fc_u16 table[16] = {
    0x0000, 0x1081, 0x2102, 0x3183, 0x4204, 0x5285, 0x6306, 0x7387, 0x8408, 0x9489, 0xa50a, 0xb58b, 0xc60c, 0xd68d, 0xe70e, 0xf78f
};
FC_FUNCTION fc_u64 look_up(fc_u64 i) { return fc_at(table, i & 15); }
fc_u64 run(const struct fc_request *request, fc_u64 *vars, fc_u64 length)
{
    fc_u64 crc = 0xffff;
    for (fc_u64 i = 0; i < 64; i++) {
        fc_u64 byte = payload_byte(i);
        if (byte == FC_NO_BYTE)
            break;
        crc = crc >> 4 ^ look_up(crc ^ byte);
        crc = crc >> 4 ^ look_up(crc ^ byte >> 4);
    }
    crc ^= 0xffff;
    reply_put(&crc, 2);
    return FC_OK;
}
