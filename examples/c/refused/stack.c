/* A frame has 256 bytes; clang's limit is 512. */
#include <fc.h>
fc_u64 run(const struct fc_request *request, fc_u64 *vars, fc_u64 length)
{
#ifndef MENDED
    fc_u8 text[300];
#else
    fc_u8 text[200];
#endif
    fc_at(text, request->payload[0] & 127) = 1;
    reply_put(text, sizeof text);
    return FC_OK;
}
