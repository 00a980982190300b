/* ..: it needs .bss, and an image has no other data than constants
   ..global.c:..: count++;
   in C: what lasts is a field of the variables' struct; a constant is `static const` */
#include <fc.h>
static fc_u64 count;
fc_u64 run(const struct fc_request *request, fc_u64 *vars, fc_u64 length)
{
    count++;
    reply_byte(count);
    return FC_OK;
}
