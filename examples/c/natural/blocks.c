#include <fc.h>
/* A text of 32 letters by memset, memcpy, memcmp and strlen. */
struct state { fc_u8 text[32]; fc_u32 n; };
FC_VARS(struct state);
void *memcpy(void *, const void *, __SIZE_TYPE__); int memcmp(const void *, const void *, __SIZE_TYPE__); void *memset(void *, int, __SIZE_TYPE__); __SIZE_TYPE__ strlen(const char *);
fc_u64 run(const struct fc_request *request, struct state *s, fc_u64 length)
{
    if (length > 32) return FC_BAD_REQUEST;
    if (request->method == FC_POST) {
        if (length >= 5 && memcmp(request->payload, "clear", strlen("clear")) == 0) { memset(s, 0, sizeof *s); return FC_OK; }
        memset(s->text, ' ', 32);
        memcpy(s->text, request->payload, length);
        s->n = length;
    }
    reply_put(s->text, 32);
    return FC_OK;
}
