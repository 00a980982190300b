/* A pointer isn't a number, and can't be compared. The request and the variables always exist. */
#include <fc.h>
fc_u64 run(const struct fc_request *request, fc_u64 *vars, fc_u64 length)
{
#ifndef MENDED
    if (!vars)
        return FC_NOT_FOUND;
#endif
    reply_byte(vars[0]);
    return FC_OK;
}
