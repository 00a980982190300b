/* A DS18B20 scratchpad: 9 bytes, the last is the CRC-8 (Dallas/Maxim) of the others. Replies the temperature in tenths as text, 4.00 if bad. */
#include <fc.h>

static fc_u8 crc8(const fc_u8 *p, int n)
{
    fc_u8 crc = 0;
    for (int i = 0; i < n; i++) {
        fc_u8 byte = p[i];
        for (int j = 0; j < 8; j++) {
            fc_u8 mix = (crc ^ byte) & 1;
            crc >>= 1;
            if (mix)
                crc ^= 0x8c;
            byte >>= 1;
        }
    }
    return crc;
}

static void put_tenths(fc_i32 t)
{
    if (t < 0) {
        reply_byte('-');
        t = -t;
    }
    fc_u32 u = t;
    if (u >= 1000)
        reply_byte('0' + u / 1000);
    if (u >= 100)
        reply_byte('0' + u / 100 % 10);
    reply_byte('0' + u / 10 % 10);
    reply_byte('.');
    reply_byte('0' + u % 10);
}

fc_u64 run(const struct fc_request *request, void *vars, fc_u64 length)
{
    if (length != 9 || crc8(request->payload, 8) != request->payload[8])
        return FC_BAD_REQUEST;
    fc_i16 raw = request->payload[0] | request->payload[1] << 8;
    put_tenths(raw * 10 / 16);
    return FC_OK;
}
