/* The payload is a list of type, length and value: a byte, a byte, and at most four bytes, the
   highest first. Each sets the word of the variables with the number of its type, 0 to 7; 4.00 if
   the payload isn't a list. */
#include <fc.h>
fc_u64 run(const struct fc_request *request, fc_u64 *vars, fc_u64 length)
{
    fc_u64 at = 0;
    for (int turn = 0; turn < 32; turn++) {
        if (at == length) {
            notify();
            return FC_OK;
        }
        fc_u64 type = payload_byte(at), size = payload_byte(at + 1), value = 0;
        if (type > 7 || size > 4 || at + 2 + size > length)
            return FC_BAD_REQUEST;
        for (int i = 0; i < 4; i++)
            if (i < size)
                value = value << 8 | payload_byte(at + 2 + i);
        var_put(type, value);
        at += 2 + size;
    }
    return FC_BAD_REQUEST;
}
