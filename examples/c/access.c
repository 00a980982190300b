/* An access code by query: a GET of /r/N?code=4711 replies `open` if 4711 is the code, and is
   otherwise answered 4.03. A POST of four bytes sets a new code if its query has the old one. Any
   client can set the first code; until then a GET is answered 4.04. */
#include <fc.h>

struct state {
    fc_u32 code; /* four characters */
    fc_u32 is_set;
};
FC_VARS(struct state);

FC_INLINE int is_right(const struct fc_request *request, fc_u32 code)
{
    const fc_u8 *q = request->query;
    return request->query_length == 9 && q[0] == 'c' && q[1] == 'o' && q[2] == 'd' && q[3] == 'e' && q[4] == '='
        && *(const fc_u32 *)(q + 5) == code; /* 4 bytes at an odd place by one instruction: alignment isn't asked */
}

fc_u64 run(const struct fc_request *request, struct state *state, fc_u64 length)
{
    int is_post = request->method == FC_POST;
    if (!state->is_set && !is_post)
        return FC_NOT_FOUND;
    if (state->is_set && !is_right(request, state->code))
        return FC_FORBIDDEN;
    if (is_post) {
        if (length != 4)
            return FC_BAD_REQUEST;
        state->code = *(const fc_u32 *)request->payload;
        state->is_set = 1;
        return FC_OK;
    }
    fc_reply_text("open");
    return FC_OK;
}
