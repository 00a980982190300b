/* A command line: payload `led on`, `led off`, `fan 0`..`fan 9`, `status`, `help`. Text answers. */
#include <fc.h>

struct state {
    fc_u8 led, fan;
};
FC_VARS(struct state);

static int starts(const fc_u8 *text, const char *word)
{
    int i = 0;
    while (word[i]) {
        if (text[i] != word[i])
            return 0;
        i++;
    }
    return 1;
}

static void say(const char *text)
{
    while (*text)
        reply_byte(*text++);
}

fc_u64 run(const struct fc_request *request, struct state *s, fc_u64 length)
{
    const fc_u8 *line = request->payload;
    if (request->method == FC_POST) {
        if (length == 6 && starts(line, "led on")) {
            s->led = 1;
        } else if (length == 7 && starts(line, "led off")) {
            s->led = 0;
        } else if (length == 5 && starts(line, "fan ") && line[4] >= '0' && line[4] <= '9') {
            s->fan = line[4] - '0';
        } else if (length == 4 && starts(line, "help")) {
            say("led on|led off|fan 0..9|status");
            return FC_OK;
        } else if (!(length == 6 && starts(line, "status"))) {
            say("what?");
            return FC_BAD_REQUEST;
        }
        notify();
    }
    say("led=");
    say(s->led ? "on" : "off");
    say(" fan=");
    reply_byte('0' + s->fan);
    return FC_OK;
}
