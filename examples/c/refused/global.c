/* A global is in .bss or .data. Data that last between runs belong in the variables. */
#include <fc.h>
#ifndef MENDED
static fc_u64 count;
#endif
fc_u64 run(const struct fc_request *request, fc_u64 *vars, fc_u64 length)
{
#ifndef MENDED
    count++;
    reply_byte(count);
#else
    vars[0]++;
    reply_byte(vars[0]);
#endif
    return FC_OK;
}
