/* A beekeeper's hive scale. POST 4 bytes: the load cell's raw value, signed. ?tare sets the empty weight, ?cal with grams the scale. GET: grams, the median of 5. */
#include <fc.h>

struct state {
    fc_i32 last[5];
    fc_i32 tare;
    fc_i32 per_kilogram;
    fc_u8 next, count;
};
FC_VARS(struct state);

static fc_i32 median(const fc_i32 *values, int n)
{
    fc_i32 sorted[5];
    for (int i = 0; i < n; i++)
        sorted[i] = values[i];
    for (int i = 0; i < n; i++)
        for (int j = i + 1; j < n; j++)
            if (sorted[j] < sorted[i]) {
                fc_i32 swap = sorted[i];
                sorted[i] = sorted[j];
                sorted[j] = swap;
            }
    return sorted[n / 2];
}

fc_u64 run(const struct fc_request *request, struct state *s, fc_u64 length)
{
    if (s->per_kilogram == 0)
        s->per_kilogram = 21000;
    if (request->method == FC_POST) {
        if (length != 4)
            return FC_BAD_REQUEST;
        fc_i32 value = *(const fc_i32 *)request->payload;
        if (fc_query_is(request, "tare")) {
            s->tare = value;
            return FC_OK;
        }
        if (fc_query_is(request, "cal")) {
            if (value <= 0)
                return FC_BAD_REQUEST;
            s->per_kilogram = value;
            return FC_OK;
        }
        s->last[s->next] = value;
        s->next = (s->next + 1) % 5;
        if (s->count < 5)
            s->count++;
        notify();
    }
    if (s->count == 0)
        return FC_NOT_FOUND;
    fc_i64 grams = ((fc_i64)median(s->last, s->count) - s->tare) * 1000 / s->per_kilogram;
    reply_put(&grams, 8);
    return FC_OK;
}
