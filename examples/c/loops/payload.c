/* The payload's first 500 bytes by an index, with zeros after its end. So many iterations can't be
   written out, and the bytes are read by payload_byte. */
#include <fc.h>
fc_u64 run(const struct fc_request *request, fc_u64 *vars, fc_u64 length)
{
    fc_u64 mixed = 0;
    for (fc_u64 i = 0; i < 500; i++)
        mixed = 3 * mixed + request->payload[i];
    reply_put(&mixed, 8);
    return FC_OK;
}
