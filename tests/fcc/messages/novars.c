/* ..V22 slot ..
   ..novars.c:..: s->count++;
   in C: the image has no variables: `FC_VARS(struct state);`, or --vars */
#include <fc.h>
struct state { fc_u64 count; };
fc_u64 run(const struct fc_request *request, struct state *s, fc_u64 length)
{
    s->count++;
    reply_put(s, 8);
    return FC_OK;
}
