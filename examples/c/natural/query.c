#include <fc.h>
/* Bytes of the query, and an array on the stack of which pairs are changed. */
struct state { fc_u64 w[8]; };
FC_VARS(struct state);
fc_u64 run(const struct fc_request *request, struct state *s, fc_u64 length)
{
    fc_u8 copy[16];
    for (int i = 0; i < 16; i++) copy[i] = request->payload[15 - i];
    for (int i = 0; i < 8; i++) { fc_u16 *q = (fc_u16 *)copy + i; *q += i * 1000 + (fc_i16)*q / 3; }
    reply_put(copy, 16);
    fc_u64 n = request->query_length;
    for (fc_u64 i = 0; i < n && i < 64; i++) {
        fc_u8 c = request->query[i];
        fc_u8 *p = (fc_u8 *)s + (c & 63);
        *p = *p + 1 + copy[c & 15];
        reply_byte(*p ^ request->query[63 - i]);
    }
    reply_put(request->payload + 3, 5);
    return FC_OK;
}
