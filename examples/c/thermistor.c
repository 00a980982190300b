/* A thermistor at a converter of 12 bits. A POST has the measured value, 0 to 4095, in two bytes,
   the lowest first, and is answered 4.00 for a greater one. Both reply with the temperature in
   tenths of a degree, two bytes with a sign: on the line between two points of the table, which are
   256 apart. Observers are notified of each measurement. */
#include <fc.h>

struct state {
    fc_i16 tenths;
};
FC_VARS(struct state);

static const fc_i16 table[17] = {1250, 980, 790, 670, 580, 500, 430, 370, 310, 250, 190, 130, 70, 0, -90, -210, -400};

fc_u64 run(const struct fc_request *request, struct state *state, fc_u64 length)
{
    if (request->method == FC_POST) {
        fc_u64 measured = *(const fc_u16 *)request->payload;
        if (length != 2 || measured > 4095)
            return FC_BAD_REQUEST;
        fc_u64 i = measured >> 8;
        fc_i64 from = table[i], to = table[i + 1];
        state->tenths = from + fc_sdiv((to - from) * (measured & 255), 256); /* towards zero, as C divides */
        notify();
    }
    reply_put(state, 2);
    return FC_OK;
}
