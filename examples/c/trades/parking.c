/* A car park with two light barriers, bits 0 and 1 of sensor byte 0. In: 1, then 3, then 2, then 0; out: the other way. POST looks. GET: "free 12" or "full". */
#include <fc.h>

struct state {
    fc_u8 history[4];
    fc_u16 cars;
    fc_u16 places;
};
FC_VARS(struct state);

static const fc_u8 going_in[4] = { 1, 3, 2, 0 };
static const fc_u8 going_out[4] = { 2, 3, 1, 0 };

static int same(const fc_u8 *a, const fc_u8 *b, int n)
{
    for (int i = 0; i < n; i++)
        if (a[i] != b[i])
            return 0;
    return 1;
}

fc_u64 run(const struct fc_request *request, struct state *s, fc_u64 length, const struct fc_readings *readings)
{
    if (s->places == 0)
        s->places = 40;
    if (request->method == FC_POST) {
        if (fc_query_is(request, "places")) {
            if (length != 2)
                return FC_BAD_REQUEST;
            s->places = request->payload[0] + 256 * request->payload[1];
            return FC_OK;
        }
        fc_u8 now = readings->sensors[0] & 3;
        if (now != s->history[3]) {
            for (int i = 0; i < 3; i++)
                s->history[i] = s->history[i + 1];
            s->history[3] = now;
            if (same(s->history, going_in, 4)) {
                s->cars++;
                notify();
            } else if (same(s->history, going_out, 4) && s->cars > 0) {
                s->cars--;
                notify();
            }
        }
    }
    if (s->cars >= s->places) {
        reply_put("full", 4);
        return FC_OK;
    }
    reply_put("free ", 5);
    fc_reply_decimal(s->places - s->cars);
    return FC_OK;
}
