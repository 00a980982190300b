/* fcc: warning: run returns 404, which is answered 5.00: FC_NOT_FOUND and its like are the codes */
#include <fc.h>
fc_u64 run(const struct fc_request *request, fc_u64 *vars, fc_u64 length)
{
    if (length == 0)
        return 404;
    return FC_OK;
}
