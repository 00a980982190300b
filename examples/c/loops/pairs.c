/* The number of equal neighbours in the payload, by an index; the variables' first word counts them
   all: two bytes in each iteration. */
#include <fc.h>
fc_u64 run(const struct fc_request *request, fc_u64 *vars, fc_u64 length)
{
    fc_u64 alike = 0;
    for (fc_u64 i = 0; i + 1 < length; i++) {
        if (request->payload[i] == request->payload[i + 1]) {
            alike++;
            vars[0]++;
        }
    }
    reply_put(&alike, 8);
    return FC_OK;
}
