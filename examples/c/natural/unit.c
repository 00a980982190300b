/* A PT1000: resistance in ohms x 10 (u16) to tenths of degrees by a table with interpolation; ?f replies Fahrenheit. Text answer. */
#include <fc.h>

static const struct { fc_u16 ohms; fc_i16 tenths; } table[] = {
    {8031, -500}, {8427, -400}, {8822, -300}, {9216, -200}, {9609, -100}, {10000, 0}, {10390, 100}, {10779, 200},
    {11167, 300}, {11554, 400}, {11940, 500}, {12324, 600}, {12708, 700}, {13090, 800}, {13471, 900}, {13851, 1000},
};
#define N (sizeof table / sizeof table[0])

fc_u64 run(const struct fc_request *request, void *vars, fc_u64 length)
{
    if (length != 2)
        return FC_BAD_REQUEST;
    fc_u16 ohms = *(const fc_u16 *)request->payload;
    if (ohms < table[0].ohms || ohms > table[N - 1].ohms)
        return FC_BAD_REQUEST;
    fc_u64 i = 0;
    while (i < N - 2 && ohms > table[i + 1].ohms)
        i++;
    fc_i32 span = table[i + 1].ohms - table[i].ohms;
    fc_i32 t = table[i].tenths + (ohms - table[i].ohms) * (table[i + 1].tenths - table[i].tenths) / span;
    if (fc_query_is(request, "f"))
        t = t * 9 / 5 + 320;
    if (t < 0) {
        reply_byte('-');
        t = -t;
    }
    fc_u32 u = t;
    if (u >= 1000)
        reply_byte('0' + u / 1000);
    if (u >= 100)
        reply_byte('0' + u / 100 % 10);
    reply_byte('0' + u / 10 % 10);
    reply_byte('.');
    reply_byte('0' + u % 10);
    return FC_OK;
}
