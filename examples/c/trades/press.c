/* A printer's press. POST a byte: sheets since the last POST, by shift of eight hours. GET: JSON, {"total":1234,"shifts":[10,20,30],"per_hour":400}. ?reset begins
   anew. */
#include <fc.h>

struct state {
    fc_u64 began;
    fc_u32 total;
    fc_u32 shift[3];
};
FC_VARS(struct state);

static void text(const char *s)
{
    while (*s)
        reply_byte(*s++);
}

static void number(fc_u32 n)
{
    char buffer[11];
    char *p = buffer + sizeof buffer;
    *--p = 0;
    do {
        *--p = '0' + n % 10;
        n /= 10;
    } while (n);
    text(p);
}

fc_u64 run(const struct fc_request *request, struct state *s, fc_u64 length, const struct fc_readings *readings)
{
    fc_u64 hour = readings->clock / 3600000;
    if (request->method == FC_POST) {
        if (fc_query_is(request, "reset")) {
            __builtin_memset(s, 0, sizeof *s);
            s->began = hour;
            notify();
            return FC_OK;
        }
        if (length != 1)
            return FC_BAD_REQUEST;
        s->total += request->payload[0];
        s->shift[hour / 8 % 3] += request->payload[0];
        notify();
    }
    text("{\"total\":");
    number(s->total);
    text(",\"shifts\":[");
    for (int i = 0; i < 3; i++) {
        if (i)
            text(",");
        number(s->shift[i]);
    }
    text("],\"per_hour\":");
    fc_u64 hours = hour - s->began + 1;
    number(s->total / hours);
    text("}");
    return FC_OK;
}
