/* The payload's first 400 bytes by a moving pointer. */
#include <fc.h>
fc_u64 run(const struct fc_request *request, fc_u64 *vars, fc_u64 length)
{
    const fc_u8 *at = request->payload;
    fc_u64 mixed = length;
    for (int left = 400; left > 0; left--)
        mixed = 5 * mixed ^ *at++;
    reply_put(&mixed, 8);
    return FC_OK;
}
