/* A door: closed, open, locked, alarm. Events come as a word in the payload: open close lock unlock force reset. */
#include <fc.h>

enum door { CLOSED, OPEN, LOCKED, ALARM };
struct state {
    enum door door;
    fc_u32 count;
};
FC_VARS(struct state);

static int is(const struct fc_request *request, const char *word, fc_u64 n)
{
    if (request->length != n)
        return 0;
    for (fc_u64 i = 0; i < n; i++)
        if (request->payload[i] != word[i])
            return 0;
    return 1;
}

fc_u64 run(const struct fc_request *request, struct state *s, fc_u64 length)
{
    if (request->method == FC_POST) {
        enum door next = s->door;
        int open = is(request, "open", 4), close = is(request, "close", 5), lock = is(request, "lock", 4), unlock = is(request, "unlock", 6),
            force = is(request, "force", 5), reset = is(request, "reset", 5);
        if (!(open | close | lock | unlock | force | reset))
            return FC_BAD_REQUEST;
        switch (s->door) {
        case CLOSED:
            if (open) next = OPEN;
            else if (lock) next = LOCKED;
            break;
        case OPEN:
            if (close) next = CLOSED;
            break;
        case LOCKED:
            if (unlock) next = CLOSED;
            else if (force || open) next = ALARM;
            break;
        case ALARM:
            if (reset) next = CLOSED;
            break;
        }
        if (next != s->door) {
            s->door = next;
            s->count++;
            notify();
        }
    }
    switch (s->door) {
    case CLOSED: reply_put("closed", 6); break;
    case OPEN: reply_put("open", 4); break;
    case LOCKED: reply_put("locked", 6); break;
    default: reply_put("alarm", 5);
    }
    return FC_OK;
}
