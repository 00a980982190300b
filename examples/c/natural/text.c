#include <fc.h>
/* A number in decimal from the end of a text, and comparisons with the query. */
struct state { fc_u64 w[8]; };
FC_VARS(struct state);
static int same(const fc_u8 *a, const fc_u8 *b, fc_u64 n) { for (fc_u64 i = 0; i < n && i < 9; i++) if (a[i] != b[i]) return 0; return 1; }
fc_u64 run(const struct fc_request *request, struct state *s, fc_u64 length)
{
    char text[24];
    fc_u64 n = 0;
    fc_i32 x = *(const fc_i32 *)(request->payload + 2);
    fc_u64 u = x < 0 ? -(fc_u64)x : x;
    do { text[23 - n] = '0' + u % 10; n++; u /= 10; } while (u && n < 22);
    if (x < 0) text[23 - n++] = '-';
    reply_put(text + 24 - n, n);
    if (request->query_length > 0 && same(request->query, request->payload, request->query_length & 1)) reply_byte('=');
    if (same(request->query, request->payload + 1, request->query_length)) reply_byte('!');
    return FC_OK;
}
