/* An aquarist's lamp: the hour of the day gives three colours in percent, between the rows of a table. POST 4 bytes sets the time of day in seconds. GET: three
   numbers, "12,40,100". */
#include <fc.h>

static const fc_u8 hours[7] = { 0, 8, 10, 13, 17, 20, 22 };
static const fc_u8 colours[7][3] = { { 0, 0, 2 }, { 0, 0, 2 }, { 20, 30, 60 }, { 90, 80, 100 }, { 90, 80, 100 }, { 30, 10, 50 }, { 0, 0, 2 } };

struct state {
    fc_u64 midnight; /* the clock at the last one */
};
FC_VARS(struct state);

static void decimal(fc_u32 x)
{
    fc_u32 unit = 1;
    while (unit * 10 <= x)
        unit *= 10;
    while (unit > 0) {
        reply_byte('0' + x / unit % 10);
        unit /= 10;
    }
}

fc_u64 run(const struct fc_request *request, struct state *s, fc_u64 length, const struct fc_readings *readings)
{
    if (request->method == FC_POST) {
        if (length != 4)
            return FC_BAD_REQUEST;
        fc_u32 seconds = *(const fc_u32 *)request->payload;
        if (seconds >= 86400)
            return FC_BAD_REQUEST;
        s->midnight = readings->clock - seconds * 1000ull;
        return FC_OK;
    }
    fc_u32 now = (readings->clock - s->midnight) / 1000 % 86400;
    int row = 0;
    while (row < 6 && hours[row + 1] * 3600u <= now)
        row++;
    fc_u32 from = hours[row] * 3600u;
    fc_u32 to = row < 6 ? hours[row + 1] * 3600u : 86400;
    for (int i = 0; i < 3; i++) {
        int a = colours[row][i], b = colours[(row + 1) % 7][i];
        int value = a + (b - a) * (int)(now - from) / (int)(to - from);
        if (i)
            reply_byte(',');
        decimal(value);
    }
    return FC_OK;
}
