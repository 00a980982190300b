/* A thermostat. A POST has the temperature, a byte in whole degrees: below the target the heating
   is switched on, above the target it is switched off. A POST with the query `target` sets the
   target instead; until then the target is 20. Each POST and GET replies `on` or `off`. Observers
   are notified when this state changes. */
#include <fc.h>

struct state {
    fc_u8 is_on;
    fc_u8 target; /* 0 while none is set */
};
FC_VARS(struct state);

fc_u64 run(const struct fc_request *request, struct state *state, fc_u64 length)
{
    if (request->method == FC_POST) {
        if (length != 1)
            return FC_BAD_REQUEST;
        fc_u8 degrees = request->payload[0];
        if (fc_query_is(request, "target")) {
            state->target = degrees;
        } else {
            fc_u8 target = state->target ? state->target : 20, was_on = state->is_on;
            if (degrees < target)
                state->is_on = 1;
            if (degrees > target)
                state->is_on = 0;
            if (state->is_on != was_on)
                notify();
        }
    }
    if (state->is_on)
        reply_put("on", 2);
    else
        reply_put("off", 3);
    return FC_OK;
}
