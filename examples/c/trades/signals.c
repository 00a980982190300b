/* A model railway of eight blocks in a ring. Sensor byte 0: which blocks have a train. The signal before block i is red if i is taken, yellow if the next one is,
   else green. POST looks and tells observers of a change; the reply is eight letters. ?lock with a byte keeps a block red. */
#include <fc.h>

#define BLOCKS 8

struct state {
    char aspect[BLOCKS];
    fc_u8 locked[BLOCKS];
};
FC_VARS(struct state);

fc_u64 run(const struct fc_request *request, struct state *s, fc_u64 length, const struct fc_readings *readings)
{
    fc_u8 taken = readings->sensors[0];
    if (request->method == FC_POST) {
        if (fc_query_is(request, "lock") || fc_query_is(request, "unlock")) {
            if (length != 1 || request->payload[0] >= BLOCKS)
                return FC_BAD_REQUEST;
            s->locked[request->payload[0]] = fc_query_is(request, "lock");
        }
        int changed = 0;
        for (int i = 0; i < BLOCKS; i++) {
            int next = (i + 1) % BLOCKS;
            char aspect = 'G';
            if ((taken >> i & 1) || s->locked[i])
                aspect = 'R';
            else if ((taken >> next & 1) || s->locked[next])
                aspect = 'Y';
            if (s->aspect[i] != aspect) {
                s->aspect[i] = aspect;
                changed = 1;
            }
        }
        if (changed)
            notify();
    }
    reply_put(s->aspect, BLOCKS);
    return FC_OK;
}
