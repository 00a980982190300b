/* clang merges the ends of both paths: one call, of -6 or -2 and of 2 or 3 bytes. With -mllvm -enable-tail-merge=0 it is accepted. */
#include <fc.h>
fc_u64 run(const struct fc_request *request, fc_u64 *vars, fc_u64 length)
{
    if (vars[0]) {
        char on[2] = {'o', 'n'};
        reply_put(on, 2);
    } else {
        char off[3] = {'o', 'f', 'f'};
        reply_put(off, 3);
    }
    return FC_OK;
}
