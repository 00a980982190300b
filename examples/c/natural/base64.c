/* The payload (96 bytes at most) in base64. */
#include <fc.h>

static const char letters[] = "ABCDEFGHIJKLMNOPQRSTUVWXYZabcdefghijklmnopqrstuvwxyz0123456789+/";

fc_u64 run(const struct fc_request *request, void *vars, fc_u64 length)
{
    const fc_u8 *p = request->payload;
    if (length > 96)
        return FC_BAD_REQUEST;
    for (fc_u64 i = 0; i < length; i += 3) {
        fc_u32 x = p[i] << 16 | p[i + 1] << 8 | p[i + 2];
        reply_byte(letters[x >> 18]);
        reply_byte(letters[x >> 12 & 63]);
        reply_byte(i + 1 < length ? letters[x >> 6 & 63] : '=');
        reply_byte(i + 2 < length ? letters[x & 63] : '=');
    }
    return FC_OK;
}
