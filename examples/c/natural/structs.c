#include <fc.h>
/* Structs in the variables and on the stack, tables, and a pointer that walks. */
struct item { fc_u8 key; fc_i16 value; fc_u32 time; };
struct state { struct item items[7]; fc_i8 small[8]; };
FC_VARS(struct state);
static const fc_i16 table[10] = {-5, 3, 1000, -32768, 32767, 7, 8, 9, -1, 0};
static const struct { fc_u8 a; fc_i32 b; } pairs[5] = {{1, -10}, {2, 20}, {3, -2147483647}, {4, 40}, {255, 5}};
fc_u64 run(const struct fc_request *request, struct state *s, fc_u64 length)
{
    struct item local[4] = {{1, -2, 3}, {4, 5, 6}};
    fc_i64 sum = 0;
    if (length > 40) return FC_BAD_REQUEST;
    for (fc_u64 i = 0; i < length; i++) {
        fc_u8 c = request->payload[i];
        s->items[c % 6].value += (fc_i8)c;
        s->items[c % 6].time = s->items[(c + 1) % 6].time + c;
        s->small[c & 7] -= c;
        local[c & 3].value = local[(c >> 2) & 3].value - c;
        local[(c + 1) & 3].key ^= c;
        sum += table[c % 10] + pairs[c % 5].b + pairs[c % 5].a + local[c & 3].value + local[2].key;
    }
    reply_put(&sum, 8);
    for (fc_u64 i = 0; i < 4; i++) { reply_byte(local[i].key); reply_byte(local[i].value); reply_byte(local[i].value >> 8); reply_byte(local[i].time); }
    const fc_u8 *p = request->payload, *end = p + length;
    fc_u64 words = 0;
    while (p < end) { if (*p++ == ' ') words++; }
    reply_byte(words);
    return FC_OK;
}
