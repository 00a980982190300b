/* A greenhouse: three sensors, a heater, a vent and an alarm. docs/GREENHOUSE.md walks through it.

   A POST without a payload looks at the sensors; the bridge sends one each second. It replies "heater=on vent=off alarm=off", as a GET does, and observers
   are notified of each change. POST "ack" ends the alarm. A POST to a program without a state is answered 4.04, so that no relay moves; POST "start" gives it
   a state. A program that is uploaded by PUT with `?keep` has the state of the previous program. */
#include <fc.h>

#ifndef DAY
#define DAY 180 /* the heater's target temperature by day, in tenths of a degree */
#endif
enum { NIGHT = 120, BAND = 5, HOT = 280, COOL = 260, FROST = 50, HUMID = 850, DRY = 750 }; /* tenths of a degree, and of a percent */
enum { EVENING = 22 * 60, MORNING = 6 * 60, MINIMUM = 5000, STALE = 4000 };                   /* minutes of the day, and milliseconds */

struct sensors {
    fc_i16 inside, outside;
    fc_u16 humidity, minute;
    fc_u8 counter; /* never 0, and different in each second */
};
struct relay {
    fc_u64 since, is_on; /* the clock when the relay was last switched, and whether it is on */
};
struct state {
    struct relay heater, vent;
    fc_u64 seen; /* the clock when the counter last changed */
    fc_u8 counter, has_begun, is_cause, is_alarm;
};
FC_VARS(struct state);

#define is(word) (length == sizeof(word) - 1 && !__builtin_memcmp(request->payload, word, sizeof(word) - 1))

/* Switches a relay on or off, but not before its minimum time has passed. */
static void want(struct relay *relay, fc_u64 is_on, fc_u64 now)
{
    if (is_on == relay->is_on || now - relay->since < MINIMUM)
        return;
    relay->is_on = is_on;
    relay->since = now;
    notify();
}

static void look(struct state *s, const struct sensors *sensors, fc_u64 now)
{
    if (sensors->counter != s->counter)
        s->seen = now;
    s->counter = sensors->counter;
    int is_stale = !sensors->counter || now - s->seen > STALE;
    int inside = sensors->inside, humidity = sensors->humidity;
    int target = sensors->minute >= EVENING || sensors->minute < MORNING ? NIGHT : DAY;
    int may_vent = !is_stale && sensors->outside > FROST;
    int is_cold = inside < target - BAND || (inside <= target + BAND && s->heater.is_on);
    int is_close = inside > HOT || humidity > HUMID || ((inside > COOL || humidity > DRY) && s->vent.is_on);
    want(&s->heater, !is_stale && is_cold, now);
    want(&s->vent, may_vent && is_close, now);
    int is_cause = is_stale || inside < FROST;
    if (is_cause && !s->is_cause) {
        s->is_alarm = 1;
        notify();
    }
    s->is_cause = is_cause;
}

static void put(fc_u64 is_on)
{
    if (is_on)
        reply_put("on", 2);
    else
        reply_put("off", 3);
}

fc_u64 run(const struct fc_request *request, struct state *s, fc_u64 length, const struct fc_readings *readings)
{
    int is_post = request->method == FC_POST;
    if (is_post && is("start")) {
        s->heater.since = s->vent.since = s->seen = readings->clock;
        s->has_begun = 1;
        notify();
    } else if (is_post && s->has_begun && is("ack")) {
        s->is_alarm = 0;
        notify();
    } else if (is_post && s->has_begun) {
        look(s, (const struct sensors *)readings->sensors, readings->clock);
    }
    if (!s->has_begun) {
        reply_put("no state", 8);
        return is_post ? FC_NOT_FOUND : FC_OK;
    }
    reply_put("heater=", 7);
    put(s->heater.is_on);
    reply_put(" vent=", 6);
    put(s->vent.is_on);
    reply_put(" alarm=", 7);
    put(s->is_alarm);
    return FC_OK;
}
