/* ..: it needs .rodata.., a table of pointers, and no pointer lies in memory
   ..texts.c:..: const char *name = names[request->payload[0] % 3];
   in C: a `switch`, or an array of arrays, as `static const char names[3][8]` */
#include <fc.h>
static const char *const names[3] = { "off", "low", "high" };
fc_u64 run(const struct fc_request *request, fc_u64 *vars, fc_u64 length)
{
    const char *name = names[request->payload[0] % 3];
    while (*name)
        reply_byte(*name++);
    return FC_OK;
}
