/* An energy meter: pulses (u32) and the constant, pulses per kWh (u32). Keeps the total of pulses; replies Wh in decimal and the mean power in W since the first. */
#include <fc.h>

struct state {
    fc_u64 pulses, first, now;
    fc_u32 constant, is_set;
};
FC_VARS(struct state);

static void put_u64(fc_u64 x)
{
    char text[20];
    int n = 20;
    do {
        text[--n] = '0' + x % 10;
        x /= 10;
    } while (x);
    reply_put(text + n, 20 - n);
}

fc_u64 run(const struct fc_request *request, struct state *s, fc_u64 length, const struct fc_readings *readings)
{
    if (request->method == FC_POST) {
        if (length != 8)
            return FC_BAD_REQUEST;
        const fc_u32 *p = (const fc_u32 *)request->payload;
        if (!s->is_set) {
            s->is_set = 1;
            s->first = readings->clock;
        }
        s->pulses += p[0];
        s->constant = p[1];
        s->now = readings->clock;
        notify();
    }
    if (!s->is_set || s->constant == 0)
        return FC_NOT_FOUND;
    fc_u64 wh = s->pulses * 1000 / s->constant;
    fc_u64 elapsed = s->now - s->first;
    put_u64(wh);
    reply_put(" Wh ", 4);
    put_u64(elapsed ? wh * 3600000 / elapsed : 0);
    reply_put(" W", 2);
    return FC_OK;
}
