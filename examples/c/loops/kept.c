/* A sum like sum.c, by `do`, with a counter that clang can't look through. */
#include <fc.h>
fc_u64 run(const struct fc_request *request, fc_u64 *vars, fc_u64 length)
{
    fc_u64 sum = 0, i = 0;
    do {
        fc_u64 byte = payload_byte(i);
        if (byte < 256)
            sum += byte;
        i++;
        fc_keep(i);
    } while (i < 64);
    reply_byte(sum);
    return FC_OK;
}
