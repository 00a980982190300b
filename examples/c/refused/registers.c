/* Four registers are kept over a call: other values needed after it are stored on the stack, and a pointer can't be stored there. */
#include <fc.h>
fc_u64 run(const struct fc_request *request, fc_u64 *vars, fc_u64 length)
{
    fc_u64 a = vars[0], b = vars[1], c = vars[2], d = vars[3];
    reply_byte(a + b);
    reply_byte(c + d);
#ifndef MENDED
    reply_byte(a + c + request->payload[0]);
    reply_byte(b + d + request->payload[1]);
#else
    reply_byte(a + c + payload_byte(0));
    reply_byte(b + d + payload_byte(1));
#endif
    return FC_OK;
}
