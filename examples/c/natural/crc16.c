/* CRC-16/CCITT-FALSE of the payload, as four hex digits. */
#include <fc.h>

static const char hex[] = "0123456789abcdef";

fc_u64 run(const struct fc_request *request, void *vars, fc_u64 length)
{
    fc_u16 crc = 0xffff;
    for (fc_u64 i = 0; i < length; i++) {
        crc ^= request->payload[i] << 8;
        for (int bit = 0; bit < 8; bit++)
            crc = crc & 0x8000 ? crc << 1 ^ 0x1021 : crc << 1;
    }
    reply_byte(hex[crc >> 12]);
    reply_byte(hex[crc >> 8 & 15]);
    reply_byte(hex[crc >> 4 & 15]);
    reply_byte(hex[crc & 15]);
    return FC_OK;
}
