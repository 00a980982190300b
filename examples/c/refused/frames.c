/* The function gets a pointer into its caller's frame, and one into a frame further up: the frame is unknown. */
#include <fc.h>
#ifndef MENDED
FC_FUNCTION fc_u64 mark(fc_u8 *at) { return at[0] = 1; }
#else
FC_INLINE fc_u64 mark(fc_u8 *at) { return at[0] = 1; }
#endif
FC_FUNCTION fc_u64 both(fc_u8 *at) { return mark(at) + mark(at + 1); }
fc_u64 run(const struct fc_request *request, fc_u64 *vars, fc_u64 length)
{
    fc_u8 marks[4];
    both(marks);
    mark(marks + 3);
    reply_put(marks, 1);
    return FC_OK;
}
