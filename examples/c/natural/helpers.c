#include <fc.h>
/* The helpers of fc.h for numbers and for bytes at computed places. */
struct state { fc_i64 n; };
FC_VARS(struct state);
fc_u64 run(const struct fc_request *request, struct state *s, fc_u64 length)
{
    if (request->method == FC_POST)
        s->n = *(const fc_i64 *)request->payload;
    fc_reply_signed(s->n);
    reply_byte(' ');
    fc_reply_decimal(s->n);
    reply_byte(' ');
    for (fc_u64 i = 0; i < 64; i++) {
        fc_u64 c = fc_query_at(request, i);
        if (!c)
            break;
        reply_byte(c + fc_payload_at(i));
    }
    reply_byte(fc_clamp((fc_i64)length, 3, 9));
    return FC_OK;
}
