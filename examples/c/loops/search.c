/* The range of the payload's length, one of twelve. The loop is left with the result, or reaches
   its end. */
#include <fc.h>
static const fc_u16 ends[12] = {1, 3, 5, 9, 20, 21, 22, 40, 80, 100, 120, 200};
fc_u64 run(const struct fc_request *request, fc_u64 *vars, fc_u64 length)
{
    for (fc_u64 i = 0; i < 12; i++) {
        if (length < ends[i]) {
            reply_byte(i);
            return FC_OK;
        }
    }
    return FC_NOT_FOUND;
}
