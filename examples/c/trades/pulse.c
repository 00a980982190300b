/* A nurse's pulse meter. POST without a body at each beat; the clock tells when. GET: beats a minute by the mean of the last eight intervals, "72", or "-". An
   interval below 250 ms is noise; one above 3 s starts anew. */
#include <fc.h>

struct state {
    fc_u64 last;
    fc_u16 interval[8];
    fc_u8 at, count;
};
FC_VARS(struct state);

fc_u64 run(const struct fc_request *request, struct state *s, fc_u64 length, const struct fc_readings *readings)
{
    fc_u64 now = readings->clock;
    if (request->method == FC_POST) {
        fc_u64 since = now - s->last;
        if (s->last != 0 && since < 250)
            return FC_BAD_REQUEST;
        if (s->last == 0 || since > 3000) {
            s->count = 0;
            s->at = 0;
        } else {
            s->interval[s->at] = since;
            s->at = (s->at + 1) & 7;
            if (s->count < 8)
                s->count++;
        }
        s->last = now;
        notify();
    }
    if (s->count < 2) {
        reply_byte('-');
        return FC_OK;
    }
    unsigned sum = 0;
    for (int i = 0; i < s->count; i++)
        sum += s->interval[i];
    unsigned rate = 60000u * s->count / sum;
    char text[4];
    int n = 0;
    if (rate >= 100)
        text[n++] = '0' + rate / 100;
    text[n++] = '0' + rate / 10 % 10;
    text[n++] = '0' + rate % 10;
    reply_put(text, n);
    return FC_OK;
}
