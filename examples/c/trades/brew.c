/* A brewer's fermenter. POST u16: the tilt in tenths of a degree. Replies the gravity in thousandths as text, "1.048", and " done" if it has not changed by more
   than 1 in six readings. */
#include <fc.h>

struct state {
    fc_u16 gravity[6];
    fc_u8 count;
};
FC_VARS(struct state);

fc_u64 run(const struct fc_request *request, struct state *s, fc_u64 length)
{
    if (request->method == FC_POST) {
        if (length != 2)
            return FC_BAD_REQUEST;
        int tilt = request->payload[0] | request->payload[1] << 8;
        if (tilt > 900)
            return FC_BAD_REQUEST;
        /* sg = 1000 + a t - b t^2 + c t^3 */
        fc_i64 t = tilt;
        fc_i64 gravity = 1000 + (t * 182000 - t * t * 13 + t * t * t / 53) / 1000000;
        for (int i = 5; i > 0; i--)
            s->gravity[i] = s->gravity[i - 1];
        s->gravity[0] = gravity;
        if (s->count < 6)
            s->count++;
        notify();
    }
    if (s->count == 0)
        return FC_NOT_FOUND;
    int least = s->gravity[0], most = s->gravity[0];
    for (int i = 1; i < s->count; i++) {
        if (s->gravity[i] < least)
            least = s->gravity[i];
        if (s->gravity[i] > most)
            most = s->gravity[i];
    }
    char text[5];
    int g = s->gravity[0];
    text[0] = '0' + g / 1000;
    text[1] = '.';
    text[2] = '0' + g / 100 % 10;
    text[3] = '0' + g / 10 % 10;
    text[4] = '0' + g % 10;
    reply_put(text, 5);
    if (s->count == 6 && most - least <= 1)
        reply_put(" done", 5);
    return FC_OK;
}
