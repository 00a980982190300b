/* The average of the last four readings. A POST has a reading as decimal text, `0` to `9999`; any
   other payload gets 4.00. A GET replies with the average of the last readings, at most four, as
   decimal text, rounded down, and is answered 4.04 if there is none. Observers are notified of each
   reading. */
#include <fc.h>

struct state {
    fc_u16 reading[4]; /* the latest first */
    fc_u64 count;      /* 0 to 4 */
};
FC_VARS(struct state);

FC_FUNCTION fc_u64 digit(fc_u64 value, fc_u64 unit)
{
    return value < unit ? 0 : reply_byte('0' + value / unit % 10);
}

fc_u64 run(const struct fc_request *request, struct state *state, fc_u64 length)
{
    if (request->method == FC_POST) {
        fc_u64 value = 0;
        if (length < 1 || length > 4)
            return FC_BAD_REQUEST;
        FC_UNROLL
        for (fc_u64 i = 0; i < 4; i++) {
            if (i < length) {
                fc_u64 c = request->payload[i];
                if (c < '0' || c > '9')
                    return FC_BAD_REQUEST;
                value = 10 * value + (c - '0');
            }
        }
        state->reading[3] = state->reading[2];
        state->reading[2] = state->reading[1];
        state->reading[1] = state->reading[0];
        state->reading[0] = value;
        if (state->count < 4)
            state->count++;
        notify();
        return FC_OK;
    }
    if (state->count == 0)
        return FC_NOT_FOUND;
    fc_u64 average = (state->reading[0] + state->reading[1] + state->reading[2] + state->reading[3]) / state->count;
    digit(average, 1000);
    digit(average, 100);
    digit(average, 10);
    reply_byte('0' + average % 10);
    return FC_OK;
}
