/* A signed comparison proves nothing: the number is moved first, so that it is compared without a sign. */
#include <fc.h>
fc_u64 run(const struct fc_request *request, fc_u64 *vars, fc_u64 length)
{
#ifndef MENDED
    fc_i64 degrees = vars[0];
    if (degrees < -20 || degrees > 100)
        return FC_BAD_REQUEST;
    if (degrees < 0)
        reply_byte('-');
    reply_byte(fc_at(request->payload, degrees + 20));
#else
    fc_u64 degrees = vars[0] + 20;
    fc_keep(degrees);
    if (degrees > 120)
        return FC_BAD_REQUEST;
    if (degrees < 20)
        reply_byte('-');
    reply_byte(fc_at(request->payload, degrees));
#endif
    return FC_OK;
}
