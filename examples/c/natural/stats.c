/* min/max/mean of signed readings. POST i32; POST ?reset; GET text `n=3 min=-5 max=7 mean=1`. */
#include <fc.h>

struct state {
    fc_i64 sum;
    fc_u32 n;
    fc_i32 min, max;
};
FC_VARS(struct state);

static void put_number(fc_i64 x)
{
    char text[20];
    int n = 0;
    if (x < 0) {
        reply_byte('-');
        x = -x;
    }
    do {
        text[n++] = '0' + (fc_u64)x % 10;
        x = (fc_u64)x / 10;
    } while (x && n < 20);
    while (n > 0)
        reply_byte(text[--n]);
}

fc_u64 run(const struct fc_request *request, struct state *s, fc_u64 length)
{
    if (request->method == FC_POST) {
        if (fc_query_is(request, "reset")) {
            s->n = 0;
            s->sum = s->min = s->max = 0;
        } else {
            if (length != 4)
                return FC_BAD_REQUEST;
            fc_i32 x = *(const fc_i32 *)request->payload;
            if (s->n == 0 || x < s->min)
                s->min = x;
            if (s->n == 0 || x > s->max)
                s->max = x;
            s->sum += x;
            s->n++;
        }
        notify();
    }
    reply_put("n=", 2);
    put_number(s->n);
    if (s->n) {
        reply_put(" min=", 5);
        put_number(s->min);
        reply_put(" max=", 5);
        put_number(s->max);
        reply_put(" mean=", 6);
        put_number(fc_sdiv(s->sum, s->n));
    }
    return FC_OK;
}
