/* A baker's oven. The program is a table of minutes and degrees; GET replies the wanted temperature now and whether the heat is on. POST starts the bake. */
#include <fc.h>

struct step {
    fc_u16 minute;
    fc_u16 degrees;
};
static const struct step bake[] = { { 0, 30 }, { 20, 250 }, { 30, 250 }, { 45, 210 }, { 70, 190 }, { 80, 60 } };

struct state {
    fc_u64 started;
    fc_u8 is_running;
    fc_u8 heat;
};
FC_VARS(struct state);

static void put_number(unsigned n)
{
    if (n >= 10)
        put_number(n / 10);
    reply_byte('0' + n % 10);
}

static int wanted(unsigned seconds)
{
    int steps = sizeof bake / sizeof bake[0];
    for (int i = 0; i + 1 < steps; i++) {
        unsigned from = bake[i].minute * 60, to = bake[i + 1].minute * 60;
        if (seconds < to) {
            int rise = bake[i + 1].degrees - bake[i].degrees;
            return bake[i].degrees + rise * (int)(seconds - from) / (int)(to - from);
        }
    }
    return bake[steps - 1].degrees;
}

fc_u64 run(const struct fc_request *request, struct state *s, fc_u64 length, const struct fc_readings *readings)
{
    if (request->method == FC_POST) {
        if (fc_query_is(request, "start")) {
            s->started = readings->clock;
            s->is_running = 1;
        } else if (fc_query_is(request, "stop")) {
            s->is_running = 0;
            s->heat = 0;
        }
        notify();
    }
    if (!s->is_running) {
        fc_reply_text("off");
        return FC_OK;
    }
    int target = wanted((readings->clock - s->started) / 1000);
    int measured = *(const fc_i16 *)readings->sensors / 10;
    if (measured < target - 2)
        s->heat = 1;
    if (measured > target + 2)
        s->heat = 0;
    put_number(target);
    fc_reply_text(" ");
    if (s->heat)
        fc_reply_text("heat");
    else
        fc_reply_text("idle");
    return FC_OK;
}
