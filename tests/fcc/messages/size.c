/* ..size.c:..: error: static..assert.. failed ..the variables have 256 bytes.. */
#include <fc.h>
struct state { fc_u64 x[33]; };
FC_VARS(struct state);
fc_u64 run(const struct fc_request *request, struct state *s) { return s->x[0]; }
