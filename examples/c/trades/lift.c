/* A lift of 12 floors. POST a byte: a floor is called. ?at with a byte: the car is at a floor. GET: the next floor, the direction and the calls as digits. */
#include <fc.h>

enum { FLOORS = 12 };
enum direction { IDLE, UP, DOWN };

struct state {
    fc_u8 called[FLOORS];
    fc_u8 at;
    fc_u8 direction;
};
FC_VARS(struct state);

static int above(const struct state *s)
{
    for (int i = s->at + 1; i < FLOORS; i++)
        if (s->called[i])
            return i;
    return -1;
}

static int below(const struct state *s)
{
    for (int i = s->at - 1; i >= 0; i--)
        if (s->called[i])
            return i;
    return -1;
}

fc_u64 run(const struct fc_request *request, struct state *s, fc_u64 length)
{
    if (request->method == FC_POST) {
        if (length != 1 || request->payload[0] >= FLOORS)
            return FC_BAD_REQUEST;
        int floor = request->payload[0];
        if (fc_query_is(request, "at")) {
            s->at = floor;
            s->called[floor] = 0;
        } else if (floor != s->at) {
            s->called[floor] = 1;
        }
        notify();
    }
    int up = above(s), down = below(s), next = -1;
    switch (s->direction) {
    case UP:
        next = up >= 0 ? up : down;
        break;
    case DOWN:
        next = down >= 0 ? down : up;
        break;
    default:
        next = up >= 0 ? up : down;
    }
    s->direction = next < 0 ? IDLE : next > s->at ? UP : DOWN;
    reply_byte(next < 0 ? '-' : 'A' + next);
    reply_byte(" ^v"[s->direction]);
    for (int i = 0; i < FLOORS; i++)
        reply_byte(s->called[i] ? '1' : '0');
    return FC_OK;
}
