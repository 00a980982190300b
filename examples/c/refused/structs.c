/* A struct as the result of a function that is called. */
#include <fc.h>
struct parts { fc_u64 tens, ones; };
#ifndef MENDED
FC_FUNCTION struct parts split(fc_u64 x) { return (struct parts){x / 10, x % 10}; }
#else
FC_FUNCTION fc_u64 split(fc_u64 x, struct parts *to) { to->tens = x / 10; to->ones = x % 10; return 0; }
#endif
fc_u64 run(const struct fc_request *request, fc_u64 *vars, fc_u64 length)
{
#ifndef MENDED
    struct parts it = split(length & 63);
#else
    struct parts it;
    split(length & 63, &it);
#endif
    reply_byte('0' + it.tens);
    reply_byte('0' + it.ones);
    return FC_OK;
}
