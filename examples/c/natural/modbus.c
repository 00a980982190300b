/* Checks a Modbus RTU answer (address, function 3, byte count, registers, CRC-16) and replies the registers, one a line, in decimal. */
#include <fc.h>

static fc_u16 crc16(const fc_u8 *p, fc_u64 n)
{
    fc_u16 crc = 0xffff;
    for (fc_u64 i = 0; i < n; i++) {
        crc ^= p[i];
        for (int j = 0; j < 8; j++)
            crc = crc & 1 ? crc >> 1 ^ 0xa001 : crc >> 1;
    }
    return crc;
}

static void put_number(fc_u16 x)
{
    fc_u16 unit = 10000;
    while (unit > 1 && x < unit)
        unit /= 10;
    for (; unit > 0; unit /= 10)
        reply_byte('0' + x / unit % 10);
}

fc_u64 run(const struct fc_request *request, void *vars, fc_u64 length)
{
    const fc_u8 *frame = request->payload;
    if (length < 5 || length > 37)
        return FC_BAD_REQUEST;
    fc_u16 told = frame[length - 2] | frame[length - 1] << 8;
    if (crc16(frame, length - 2) != told)
        return FC_BAD_REQUEST;
    if (frame[1] != 3)
        return FC_FORBIDDEN;
    fc_u64 bytes = frame[2];
    if (bytes + 5 != length || bytes % 2)
        return FC_BAD_REQUEST;
    for (fc_u64 i = 0; i < bytes / 2; i++) {
        put_number(frame[3 + 2 * i] << 8 | frame[4 + 2 * i]);
        reply_byte('\n');
    }
    return FC_OK;
}
