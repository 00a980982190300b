/* A sailor's GPS. POST a sentence "$GPRMC,..*hh": its checksum is tried, and the speed, field 7, is kept in tenths of a knot. GET: the speed as text. */
#include <fc.h>

struct state {
    fc_u32 speed;
    fc_u32 sentences, faults;
};
FC_VARS(struct state);

static int hex(char c)
{
    if (c >= '0' && c <= '9')
        return c - '0';
    if (c >= 'A' && c <= 'F')
        return c - 'A' + 10;
    return -1;
}

fc_u64 run(const struct fc_request *request, struct state *s, fc_u64 length)
{
    const char *text = (const char *)request->payload;
    if (request->method == FC_POST) {
        if (length < 10 || length > 82 || text[0] != '$')
            return FC_BAD_REQUEST;
        fc_u8 sum = 0;
        fc_u64 end = 1;
        while (end < length && text[end] != '*')
            sum ^= text[end++];
        if (end + 2 >= length) {
            s->faults++;
            return FC_BAD_REQUEST;
        }
        int high = hex(text[end + 1]), low = hex(text[end + 2]);
        if (high < 0 || low < 0 || high * 16 + low != sum) {
            s->faults++;
            return FC_BAD_REQUEST;
        }
        int field = 0, is_after_dot = 0;
        fc_u32 speed = 0;
        for (fc_u64 i = 1; i < end; i++) {
            char c = text[i];
            if (c == ',') {
                field++;
            } else if (field == 7) {
                if (c == '.')
                    is_after_dot = 1;
                else if (c >= '0' && c <= '9') {
                    if (is_after_dot < 2)
                        speed = speed * 10 + (c - '0');
                    if (is_after_dot)
                        is_after_dot++;
                }
            }
        }
        if (!is_after_dot)
            speed *= 10;
        s->speed = speed;
        s->sentences++;
        notify();
    }
    fc_reply_decimal(s->speed / 10);
    reply_byte('.');
    reply_byte('0' + s->speed % 10);
    return FC_OK;
}
