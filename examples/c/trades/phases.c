/* An electrician's load manager: three currents in tenths of an ampere at sensor bytes 0 to 5, eight loads with a phase, a priority and a current. POST looks; the
   reply is a bit mask of the loads that may run. ?load with 4 bytes sets one: index, phase, priority, amperes. */
#include <fc.h>

struct load {
    fc_u8 phase, priority, amperes, is_on;
};
struct state {
    struct load loads[8];
    fc_u8 limit;
};
FC_VARS(struct state);

fc_u64 run(const struct fc_request *request, struct state *s, fc_u64 length, const struct fc_readings *readings)
{
    if (s->limit == 0)
        s->limit = 35;
    if (request->method == FC_POST && fc_query_is(request, "load")) {
        if (length != 4 || request->payload[0] > 7 || request->payload[1] > 2)
            return FC_BAD_REQUEST;
        struct load *one = &s->loads[request->payload[0]];
        one->phase = request->payload[1];
        one->priority = request->payload[2];
        one->amperes = request->payload[3];
        one->is_on = 1;
        return FC_OK;
    }
    if (request->method == FC_POST) {
        for (int phase = 0; phase < 3; phase++) {
            int current = ((const fc_i16 *)readings->sensors)[phase] / 10;
            if (current > s->limit) {
                /* the least important load of the phase goes */
                struct load *victim = 0;
                for (int i = 0; i < 8; i++) {
                    struct load *one = &s->loads[i];
                    if (one->phase == phase && one->is_on && (!victim || one->priority < victim->priority))
                        victim = one;
                }
                if (victim) {
                    victim->is_on = 0;
                    notify();
                }
            } else {
                for (int i = 0; i < 8; i++) {
                    struct load *one = &s->loads[i];
                    if (one->phase == phase && !one->is_on && one->amperes && current + one->amperes < s->limit) {
                        one->is_on = 1;
                        notify();
                        break;
                    }
                }
            }
        }
    }
    fc_u8 mask = 0;
    for (int i = 0; i < 8; i++)
        if (s->loads[i].is_on)
            mask |= 1 << i;
    reply_byte(mask);
    return FC_OK;
}
