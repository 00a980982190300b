/* Parses a decimal number such as -12.34 or 7 or +0.5 (at most 3 decimals), keeps it in thousandths, and formats twice its value. */
#include <fc.h>

struct state {
    fc_i64 value;
};
FC_VARS(struct state);

static void put(fc_i64 x)
{
    char text[24];
    int n = 0;
    fc_u64 u = x < 0 ? -x : x;
    for (int i = 0; i < 3; i++) {
        text[n++] = '0' + u % 10;
        u /= 10;
    }
    text[n++] = '.';
    do {
        text[n++] = '0' + u % 10;
        u /= 10;
    } while (u);
    if (x < 0)
        text[n++] = '-';
    while (n--)
        reply_byte(text[n]);
}

fc_u64 run(const struct fc_request *request, struct state *s, fc_u64 length)
{
    if (request->method == FC_POST) {
        fc_u64 i = 0;
        int negative = 0, decimals = -1, digits = 0;
        fc_i64 value = 0;
        if (length == 0 || length > 12)
            return FC_BAD_REQUEST;
        if (request->payload[0] == '-' || request->payload[0] == '+') {
            negative = request->payload[0] == '-';
            i++;
        }
        for (; i < length; i++) {
            char c = request->payload[i];
            if (c == '.' && decimals < 0) {
                decimals = 0;
            } else if (c >= '0' && c <= '9') {
                value = value * 10 + (c - '0');
                digits++;
                if (decimals >= 0)
                    decimals++;
            } else {
                return FC_BAD_REQUEST;
            }
        }
        if (digits == 0 || decimals > 3)
            return FC_BAD_REQUEST;
        for (int d = decimals < 0 ? 0 : decimals; d < 3; d++)
            value *= 10;
        s->value = negative ? -value : value;
        notify();
    }
    put(2 * s->value);
    return FC_OK;
}
