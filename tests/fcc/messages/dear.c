/* ..V16 slot 0
   cost: more than the budget of 65536 steps
   a loop of at most 1024 turns, of .. slots, which are .. steps: ..dear.c:..
   in C: a closer bound of a loop, as `if (length > 64) return FC_BAD_REQUEST;` */
#include <fc.h>
fc_u64 run(const struct fc_request *request, fc_u64 *vars, fc_u64 length)
{
    fc_u64 sum = 0;
    for (fc_u64 i = 0; i < length; i++)
        for (fc_u64 j = 0; j < 200; j++)
            sum = (sum ^ request->payload[i]) * 31 + j;
    reply_byte(sum);
    return FC_OK;
}
