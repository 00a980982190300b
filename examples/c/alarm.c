/* An alarm. A POST has a value, two bytes, the lowest first; with the query `limit` it sets the
   limit instead. Above the limit the alarm is raised, and stays raised until a POST with the query
   `ack`. After that it is normal when the value is no longer above the limit. All reply `normal`,
   `raised` or `acked`. Observers are notified when this state changes. */
#include <fc.h>

enum { NORMAL, RAISED, ACKED };
struct state {
    fc_u16 limit, value;
    fc_u8 is;
};
FC_VARS(struct state);

fc_u64 run(const struct fc_request *request, struct state *state, fc_u64 length)
{
    if (request->method == FC_POST) {
        fc_u64 was = state->is, is = was;
        if (fc_query_is(request, "ack")) {
            if (is == RAISED)
                is = ACKED;
        } else if (length != 2) {
            return FC_BAD_REQUEST;
        } else if (fc_query_is(request, "limit")) {
            state->limit = *(const fc_u16 *)request->payload;
        } else {
            state->value = *(const fc_u16 *)request->payload;
        }
        if (state->value > state->limit)
            is = is == NORMAL ? RAISED : is;
        else if (is == ACKED)
            is = NORMAL;
        state->is = is;
        if (is != was)
            notify();
    }
    if (state->is == NORMAL)
        reply_put("normal", 6);
    else if (state->is == RAISED)
        reply_put("raised", 6);
    else
        reply_put("acked", 5);
    return FC_OK;
}
