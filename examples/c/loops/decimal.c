/* The payload, decimal text of any length, as a number; 4.00 if a character isn't a digit. */
#include <fc.h>
fc_u64 run(const struct fc_request *request, fc_u64 *vars, fc_u64 length)
{
    fc_u64 x = 0;
    for (fc_u64 i = 0; i < length; i++) {
        fc_u64 digit = payload_byte(i) - '0';
        if (digit > 9)
            return FC_BAD_REQUEST;
        x = 10 * x + digit;
    }
    reply_put(&x, 8);
    return FC_OK;
}
