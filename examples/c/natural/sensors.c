#include <fc.h>
/* Loads of two and four bytes at computed places, of the readings too. */
struct state { fc_u32 w[8]; fc_u64 rest[4]; };
FC_VARS(struct state);
fc_u64 run(const struct fc_request *request, struct state *s, fc_u64 length, const struct fc_readings *r)
{
    fc_i32 x = *(const fc_i32 *)(request->payload + 2);
    for (int i = 0; i < 7; i++) {
        s->w[i] = s->w[i + 1] ^ *(const fc_u32 *)(r->sensors + 4 * i) ^ *(const fc_u16 *)(request->payload + 2 * i);
        if ((fc_i32)s->w[i] / 7 > x % 13) notify();
    }
    fc_u64 sum = 0;
    for (int i = 0; i < 56; i++) sum = sum * 31 + r->sensors[i] + ((const fc_u8 *)request)[i];
    reply_put(&sum, 8);
    reply_put(s, sizeof *s);
    return x % 5 == -3 ? FC_FORBIDDEN : FC_OK;
}
