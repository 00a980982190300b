/* A gardener's four valves. POST "2 15": valve 2 for 15 minutes. GET: for each valve the minutes that are left, "0 15 0 0". */
#include <fc.h>

struct state {
    fc_u64 until[4];
};
FC_VARS(struct state);

static int is_digit(char c)
{
    return c >= '0' && c <= '9';
}

static void put_number(fc_u32 n)
{
    char digits[10];
    int count = 0;
    do {
        digits[count++] = '0' + n % 10;
        n /= 10;
    } while (n > 0);
    while (count > 0)
        reply_byte(digits[--count]);
}

fc_u64 run(const struct fc_request *request, struct state *s, fc_u64 length, const struct fc_readings *readings)
{
    const fc_u8 *text = request->payload;
    if (request->method == FC_POST) {
        if (length < 3 || text[0] < '0' || text[0] > '3' || text[1] != ' ')
            return FC_BAD_REQUEST;
        int minutes = 0;
        for (fc_u64 i = 2; i < length; i++) {
            if (!is_digit(text[i]))
                return FC_BAD_REQUEST;
            minutes = minutes * 10 + text[i] - '0';
            if (minutes > 240)
                return FC_BAD_REQUEST;
        }
        s->until[text[0] - '0'] = readings->clock + minutes * 60000;
        notify();
    }
    for (int i = 0; i < 4; i++) {
        fc_u64 left = s->until[i] > readings->clock ? (s->until[i] - readings->clock + 59999) / 60000 : 0;
        if (i > 0)
            reply_byte(' ');
        put_number(left);
    }
    return FC_OK;
}
