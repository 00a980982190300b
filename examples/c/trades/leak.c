/* A plumber's meter. POST text: the counter in litres, as "123456". If water flows in each of the last 24 POSTs, that is a leak. GET: the litres of the last 24,
   and LEAK. */
#include <fc.h>
#include <stddef.h>

struct state {
    fc_u32 counter;
    fc_u32 litres[24];
    fc_u8 place;
    fc_u8 is_full;
    fc_u8 leak;
};
FC_VARS(struct state);

static int parse(const fc_u8 *text, size_t length, fc_u32 *value)
{
    *value = 0;
    if (length == 0 || length > 9)
        return 0;
    for (size_t i = 0; i < length; i++) {
        if (text[i] < '0' || text[i] > '9')
            return 0;
        *value = *value * 10 + (text[i] - '0');
    }
    return 1;
}

fc_u64 run(const struct fc_request *request, struct state *s, fc_u64 length)
{
    if (request->method == FC_POST) {
        fc_u32 counter;
        if (!parse(request->payload, length, &counter))
            return FC_BAD_REQUEST;
        if (counter < s->counter)
            return FC_BAD_REQUEST;
        s->litres[s->place] = s->counter ? counter - s->counter : 0;
        s->counter = counter;
        if (++s->place == 24) {
            s->place = 0;
            s->is_full = 1;
        }
        int still = 0;
        for (int i = 0; i < 24; i++)
            if (s->litres[i] == 0)
                still = 1;
        fc_u8 leak = s->is_full && !still;
        if (leak != s->leak) {
            s->leak = leak;
            notify();
        }
    }
    fc_u32 sum = 0;
    for (int i = 0; i < 24; i++)
        sum += s->litres[i];
    fc_reply_decimal(sum);
    if (s->leak)
        reply_put(" LEAK", 5);
    return FC_OK;
}
