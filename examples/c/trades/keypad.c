/* A locksmith's keypad. POST a code of 4 to 8 digits: "open" if it is one of three, else 4.03. Three wrong ones lock for 60 seconds. ?set=N with a code sets code N;
   that needs no old one while none is set. */
#include <fc.h>

struct code {
    char digits[8];
};
struct state {
    struct code codes[3];
    fc_u8 wrong;
    fc_u64 locked_until;
};
FC_VARS(struct state);

static int equals(const fc_u8 *text, fc_u64 length, const struct code *code)
{
    if (code->digits[0] == 0)
        return 0;
    for (fc_u64 i = 0; i < 8; i++) {
        char c = i < length ? text[i] : 0;
        if (c != code->digits[i])
            return 0;
    }
    return 1;
}

fc_u64 run(const struct fc_request *request, struct state *s, fc_u64 length, const struct fc_readings *readings)
{
    if (request->method != FC_POST)
        return FC_NOT_FOUND;
    if (length < 4 || length > 8)
        return FC_BAD_REQUEST;
    for (fc_u64 i = 0; i < length; i++)
        if (request->payload[i] < '0' || request->payload[i] > '9')
            return FC_BAD_REQUEST;
    if (request->query_length == 5 && request->query[0] == 's' && request->query[3] == '=') {
        int n = request->query[4] - '0';
        if (n < 0 || n > 2 || s->codes[n].digits[0] != 0)
            return FC_FORBIDDEN;
        for (int i = 0; i < 8; i++)
            s->codes[n].digits[i] = request->payload[i];
        return FC_OK;
    }
    if (readings->clock < s->locked_until)
        return FC_FORBIDDEN;
    for (int i = 0; i < 3; i++) {
        if (equals(request->payload, length, &s->codes[i])) {
            s->wrong = 0;
            notify();
            reply_put("open", 4);
            return FC_OK;
        }
    }
    if (++s->wrong >= 3) {
        s->locked_until = readings->clock + 60000;
        s->wrong = 0;
    }
    reply_put("wrong", 5);
    return FC_OK;
}
