/* A histogram of 16 bins from 0 to 1023. POST u16; GET: a line of # for each bin, the greatest bin 20 wide. */
#include <fc.h>

struct state {
    fc_u32 bin[16];
};
FC_VARS(struct state);

fc_u64 run(const struct fc_request *request, struct state *s, fc_u64 length)
{
    if (request->method == FC_POST) {
        if (length != 2)
            return FC_BAD_REQUEST;
        fc_u16 x = *(const fc_u16 *)request->payload;
        if (x > 1023)
            return FC_BAD_REQUEST;
        s->bin[x / 64]++;
        notify();
        return FC_OK;
    }
    fc_u32 max = 1;
    for (int i = 0; i < 16; i++)
        if (s->bin[i] > max)
            max = s->bin[i];
    for (int i = 0; i < 16; i++) {
        fc_u32 width = s->bin[i] * 20 / max;
        for (fc_u32 j = 0; j < width; j++)
            reply_byte('#');
        reply_byte('\n');
    }
    return FC_OK;
}
