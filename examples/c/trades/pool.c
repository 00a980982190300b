/* A pool's acid pump. Sensor bytes 0 and 1: pH in hundredths. POST each minute: a filtered pH, and a dose of at most 10 minutes an hour. Replies "7.42 dose". */
#include <fc.h>

struct state {
    fc_i32 filtered; /* in 1/25600 */
    fc_u64 hour_began;
    fc_u8 minutes;
    fc_u8 is_dosing;
};
FC_VARS(struct state);

fc_u64 run(const struct fc_request *request, struct state *s, fc_u64 length, const struct fc_readings *readings)
{
    int ph = readings->sensors[0] | readings->sensors[1] << 8;
    if (request->method == FC_POST) {
        if (ph < 300 || ph > 1100)
            return FC_BAD_REQUEST;
        if (s->filtered == 0)
            s->filtered = ph * 256;
        s->filtered += (ph * 256 - s->filtered) / 8;
        if (readings->clock - s->hour_began >= 3600000) {
            s->hour_began = readings->clock;
            s->minutes = 0;
        }
        int now = s->filtered / 256;
        fc_u8 was = s->is_dosing;
        s->is_dosing = now > 740 && s->minutes < 10;
        if (s->is_dosing)
            s->minutes++;
        if (was != s->is_dosing)
            notify();
    }
    int shown = s->filtered / 256;
    fc_reply_decimal(shown / 100);
    reply_byte('.');
    reply_byte('0' + shown / 10 % 10);
    reply_byte('0' + shown % 10);
    if (s->is_dosing)
        reply_put(" dose", 5);
    return FC_OK;
}
