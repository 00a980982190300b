/* The pointer and the length come from both paths: no fact holds for both. */
#include <fc.h>
fc_u64 run(const struct fc_request *request, fc_u64 *vars, fc_u64 length)
{
#ifndef MENDED
    const void *from = request->method == FC_GET ? (const void *)vars : request->payload;
    reply_put(from, 8);
#else
    if (request->method == FC_GET)
        reply_put(vars, 8);
    else
        reply_put(request->payload, 8);
#endif
    return FC_OK;
}
