/* ..V27 slot ..
   ..computed.c:..: reply_put(request->payload + from, length - from);
   in C: reply_put(p, n) once for each p, behind `if (n <= 8)`; if start and length vary together, ..reply_byte in a counted loop.. */
#include <fc.h>
fc_u64 run(const struct fc_request *request, fc_u64 *vars, fc_u64 length)
{
    fc_u64 from = request->payload[0];
    reply_put(request->payload + from, length - from);
    return FC_OK;
}
