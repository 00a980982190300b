/* The CRC of the payload's first 256 bytes as Modbus has it (reflected, polynomial 0x8005), bit by bit: a loop in a loop. */
#include <fc.h>
fc_u64 run(const struct fc_request *request, fc_u64 *vars, fc_u64 length)
{
    fc_u64 crc = 0xffff;
    for (fc_u64 i = 0; i < 256; i++) {
        fc_u64 byte = payload_byte(i);
        if (byte == FC_NO_BYTE)
            break;
        crc ^= byte;
#pragma clang loop unroll(disable)
        for (int bit = 0; bit < 8; bit++)
            crc = crc & 1 ? crc >> 1 ^ 0xa001 : crc >> 1;
    }
    reply_put(&crc, 2);
    return FC_OK;
}
