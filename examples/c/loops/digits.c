/* The first two words of the variables as decimal text, of at most ten digits each. */
#include <fc.h>
FC_FUNCTION fc_u64 number(fc_u64 x)
{
    fc_u64 unit = 1000000000, started = 0;
    for (int i = 0; i < 10; i++) {
        fc_u64 digit = x / unit % 10;
        started |= digit;
        if (started || i == 9)
            reply_byte('0' + digit);
        unit /= 10;
    }
    return 0;
}
fc_u64 run(const struct fc_request *request, fc_u64 *vars, fc_u64 length)
{
    number(vars[0]);
    reply_byte(' ');
    number(vars[1]);
    return FC_OK;
}
