/* ..V23 slot ..
   ..request.c:..: request->payload[0] = 1;
   in C: a copy in a local array, or reply_byte of what changes: a run can't write to what it is given */
#include <fc.h>
fc_u64 run(struct fc_request *request, fc_u64 *vars, fc_u64 length)
{
    request->payload[0] = 1;
    reply_put(request->payload, length);
    return FC_OK;
}
