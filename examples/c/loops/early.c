/* The payload in the other case, letter by letter, left at its end by `break`. */
#include <fc.h>
fc_u64 run(const struct fc_request *request, fc_u64 *vars, fc_u64 length)
{
    for (fc_u64 i = 0; i < 1024; i++) {
        fc_u64 byte = payload_byte(i);
        if (byte == FC_NO_BYTE)
            break;
        reply_byte(byte ^ 0x20);
    }
    return FC_OK;
}
