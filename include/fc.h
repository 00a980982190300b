/* Programs in C for Numzela. docs/C.md explains how to compile and upload one, docs/PROGRAMS.md the effect
   of a run, and docs/REFERENCE.md which programs are accepted.

   A program is one function that isn't static, of any name, and the static ones that it calls:

       #include <fc.h>

       fc_u64 run(const struct fc_request *request, fc_u64 *vars, fc_u64 length)
       {
           ...
           return FC_OK;
       }

   | Parameter | Register | At the start                                                                                    |
   |-----------|----------|-------------------------------------------------------------------------------------------------|
   | request   | R1       | the request: 1,104 bytes, read only                                                             |
   | vars      | R2       | the variables: as many bytes as `elf2img --vars` or FC_VARS says, 0 to 256, a multiple of 8; zero |
   |           |          | after an upload; a pointer to a struct of your own will do                                      |
   | length    | R3       | the payload's length, 0 to 1,024                                                                |
   | readings  | R4       | `const struct fc_readings *`, 64 bytes of the device, read only; where it isn't used, leave it   |
   |           | R10      | the end of the stack frame: 256 bytes                                                           |

   All other registers are unset. What `run` returns, R0, becomes the reply's code. What a run of a GET stores in the variables is gone
   at its end; a POST's is kept where it is answered 2.04. A POST that another change of the slot overtook is run again.

   Limits: 1,024 slots (an instruction is one, with a constant of 64 bits two); a budget of 65,536 steps, an instruction each, on the longest
   path; 256 bytes of stack for each function, eight functions deep; loops of 1,024 turns; no recursion, no globals but constants, no
   pointers in memory. Without loops and readings, 512 slots and four functions are an image of version 1.

   Compiled for a computer, as by `cc -I include`, the helpers are functions that a test defines. */

#ifndef FC_H
#define FC_H

typedef __UINT8_TYPE__ fc_u8;
typedef __UINT16_TYPE__ fc_u16;
typedef __UINT32_TYPE__ fc_u32;
typedef __UINT64_TYPE__ fc_u64;
typedef __INT8_TYPE__ fc_i8;
typedef __INT16_TYPE__ fc_i16;
typedef __INT32_TYPE__ fc_i32;
typedef __INT64_TYPE__ fc_i64;

/* The request. Numbers have their least byte first. Alignment isn't required; the attribute has clang read
   several bytes by one instruction. */
struct fc_request {
    fc_u8 method;           /*  0: FC_GET or FC_POST */
    fc_u8 slot;             /*  1: N of /r/N, 0 to 63 */
    fc_u16 length;          /*  2: the payload's length, 0 to 1,024 */
    fc_u16 format;          /*  4: the payload's Content-Format, 0 if it isn't given */
    fc_u8 has_format;       /*  6: 1 if it is given, otherwise 0 */
    fc_u8 query_length;     /*  7: 0 to 64 */
    fc_u8 zero[8];          /*  8 */
    fc_u8 query[64];        /* 16: the values of Uri-Query, joined by &, then zeros */
    fc_u8 payload[1024];    /* 80: then zeros */
} __attribute__((aligned(8)));

/* The readings. */
struct fc_readings {
    fc_u64 clock;           /*  0: by `fcd serve`: milliseconds since the server's start */
    fc_u8 sensors[56];      /*  8: of the device's sensors, as the server's operator defines */
} __attribute__((aligned(8)));

/* FC_VARS(struct state); outside all functions: elf2img then takes the variables' size from here. */
#define FC_VARS(type)                                                                                                  \
    _Static_assert(sizeof(type) <= 256, "the variables have 256 bytes");                                                \
    static const fc_u32 fc_size_of_variables __attribute__((section(".fc.vars"), used)) = sizeof(type)

enum { FC_GET = 1, FC_POST = 2 };
enum { FC_REPLY_GET = 4096, FC_REPLY_POST = 1024 }; /* the capacity of the reply, in bytes */

/* The codes that a program may return; any other number becomes 5.00. A reply's bytes are sent only with a
   success. */
enum {
    FC_OK = 0,              /* 2.05 to a GET, 2.04 to a POST */
    FC_CONTENT = 0x45,      /* 2.05, to a GET alone */
    FC_CHANGED = 0x44,      /* 2.04, to a POST alone */
    FC_BAD_REQUEST = 0x80,  /* 4.00 */
    FC_FORBIDDEN = 0x83,    /* 4.03 */
    FC_NOT_FOUND = 0x84     /* 4.04 */
};

/* The helpers, by their numbers; a call is one step. The results of payload_byte and var_get are numbers
   without a known bound: bound one (`if (x < 100)`, `x & 63`) before it becomes an index. */
#if defined(__BPF__) && defined(__clang__)
#define FC_HELPER(number, name, ...) static fc_u64 (*const name)(__VA_ARGS__) = (fc_u64 (*)(__VA_ARGS__))number
#elif defined(__BPF__)
#define FC_HELPER(number, name, ...) fc_u64 name(__VA_ARGS__) __attribute__((kernel_helper(number)))
#else
#define FC_HELPER(number, name, ...) fc_u64 name(__VA_ARGS__)
#endif
FC_HELPER(1, payload_len, void);                    /* 0 to 1,024 */
FC_HELPER(2, payload_byte, fc_u64 i);               /* byte i of the payload, or FC_NO_BYTE past its end */
FC_HELPER(3, var_get, fc_u64 i);                    /* the variables' i-th 8 bytes, or 0 past their end */
FC_HELPER(4, var_put, fc_u64 i, fc_u64 x);          /* sets them and returns 1; 0 past their end */
FC_HELPER(5, reply_put, const void *p, fc_u64 n);   /* adds n bytes and returns 1; 0 if they don't fit */
FC_HELPER(6, reply_byte, fc_u64 x);                 /* adds the low byte and returns 1; 0 if it doesn't fit */
FC_HELPER(7, notify, void);                         /* returns 0; has observers notified if this POST succeeds */

#define FC_NO_BYTE 0xffffffffffffffffu

/* FC_INLINE: a function that replaces each of its calls. FC_FUNCTION: one that exists once and is called, at
   most eight deep including run, with at most five arguments; it returns a number, even if no caller uses
   it. A function that is called twice costs twice. */
#define FC_INLINE static inline __attribute__((always_inline))
#define FC_FUNCTION static __attribute__((noinline, used))

/* Before a `for` with a constant count: its iterations are written out. */
#ifdef __clang__
#define FC_UNROLL _Pragma("clang loop unroll(full)")
#else
#define FC_UNROLL _Pragma("GCC unroll 1024")
#endif

/* From here on clang doesn't know the source of the variable x, so that it compares the same register that
   is used later. */
#define fc_keep(x) __asm__ volatile("" : "+r"(x))

/* array[i] as an addition of a number to a pointer; otherwise clang may add the pointer to the number, which
   is refused. */
#define fc_at(array, i)                                                                        \
    (*__extension__({                                                                          \
        __typeof__(&(array)[0]) fc_element = (array);                                          \
        fc_move(fc_element, (fc_u64)(i) * sizeof(array)[0]);                                   \
        fc_element;                                                                            \
    }))
#if defined(__BPF__) && defined(__clang__)
#define fc_move(p, bytes) __asm__ volatile("%0 += %1" : "+r"(p) : "r"(bytes))
#elif defined(__BPF__)
#define fc_move(p, bytes) __asm__ volatile("add %0, %1" : "+r"(p) : "r"(bytes))
#else
#define fc_move(p, bytes) (p = (__typeof__(p))((const char *)(p) + (bytes)))
#endif

/* Signed division and remainder, towards zero: one instruction each, which compilers for BPF don't write, or
   only with -mcpu=v4. Divided by zero they give 0 and a. */
#define fc_sdiv(a, b) fc_signed(a, b, "0x3f", (fc_b == 0 ? 0 : fc_b == -1 ? (fc_i64)-(fc_u64)fc_a : fc_a / fc_b))
#define fc_smod(a, b) fc_signed(a, b, "0x9f", (fc_b == 0 ? fc_a : fc_b == -1 ? 0 : fc_a % fc_b))
#ifdef __BPF__
#define fc_signed(a, b, opcode, answer)                                                        \
    __extension__({                                                                            \
        fc_i64 fc_left = (a), fc_right = (b);                                                  \
        register fc_i64 fc_a __asm__("r4") = fc_left;                                          \
        register fc_i64 fc_b __asm__("r5") = fc_right;                                         \
        __asm__(".byte " opcode ", 0x54, 1, 0, 0, 0, 0, 0" : "+r"(fc_a) : "r"(fc_b));          \
        fc_a;                                                                                  \
    })
#else
#define fc_signed(a, b, opcode, answer) __extension__({ fc_i64 fc_a = (a), fc_b = (b); answer; })
#endif

/* Whether the query is this literal, of 1 to 8 characters. Zeros follow the query, so its first eight bytes
   are enough. */
#define fc_query_is(request, word)                                                             \
    __extension__({                                                                            \
        _Static_assert(sizeof(word) >= 2 && sizeof(word) <= 9, "a word of 1 to 8 characters");  \
        *(const fc_u64 *)(request)->query == fc_word(word) && (request)->query_length == sizeof(word) - 1; \
    })
#define fc_word(w) (fc_char(w, 0) | fc_char(w, 1) | fc_char(w, 2) | fc_char(w, 3) | fc_char(w, 4) | fc_char(w, 5) | fc_char(w, 6) | fc_char(w, 7))
#define fc_char(w, i) ((fc_u64)(i < sizeof(w) ? (fc_u8)(w)[i < sizeof(w) ? i : 0] : 0) << 8 * i)

/* FC_TABLE(fc_u16, name, 1, 2, 3); in a function: an array that is filled at this place. Other constants, such
   as `static const fc_u16 name[] = {..}`, are stored on the stack at their function's start, eight bytes by
   one store or two: that costs less, but on each path. */
#define FC_TABLE(type, name, first, ...)                                                       \
    fc_u64 name##_zero = 0;                                                                    \
    fc_keep(name##_zero);                                                                      \
    type name[] = {(type)((first) + name##_zero), __VA_ARGS__}

/* Adds a string literal, of at most some 200 bytes, to the reply: it is written to the stack at this place. */
#define fc_reply_text(text)                    \
    __extension__({                            \
        char fc_text[sizeof(text) - 1] = text; \
        reply_put(fc_text, sizeof fc_text);    \
    })

/* Bytes at a computed place, for a loop or an index without a known bound: like request->payload[i] and
   request->query[i], with 0 past the end. That of the query costs some 20 steps, and no pointer. */
FC_INLINE fc_u64 fc_payload_at(fc_u64 i)
{
    fc_u64 byte = payload_byte(i);
    return byte & ((byte >> 63) - 1) & 255;
}

FC_INLINE fc_u64 fc_query_at(const struct fc_request *request, fc_u64 i)
{
    const fc_u64 *words = (const fc_u64 *)request->query;
    fc_u64 word = 0;
    switch (i >> 3) {
#define FC_WORD(n)                                                                             \
    case n:                                                                                    \
        word = words[n];                                                                       \
        fc_keep(word);                                                                         \
        break;
        FC_WORD(0) FC_WORD(1) FC_WORD(2) FC_WORD(3) FC_WORD(4) FC_WORD(5) FC_WORD(6) FC_WORD(7)
#undef FC_WORD
    }
    return word >> 8 * (i & 7) & 255;
}

/* Adds a number in decimal to the reply, without leading zeros. It is a function, so its code exists once. */
#define fc_reply_decimal(n) fc_decimal_(n)
FC_FUNCTION __attribute__((unused)) fc_u64 fc_decimal_(fc_u64 n)
{
    fc_u64 unit = 10000000000000000000u;
    for (fc_u64 i = 0; i < 20; i++) {
        if (n >= unit || unit == 1)
            reply_byte('0' + n / unit % 10);
        unit /= 10;
    }
    return 0;
}

/* The same for a signed number. */
#define fc_reply_signed(n)                                                                     \
    __extension__({                                                                            \
        fc_i64 fc_n = (n);                                                                     \
        if (fc_n < 0)                                                                          \
            reply_byte('-');                                                                   \
        fc_reply_decimal(fc_n < 0 ? -(fc_u64)fc_n : (fc_u64)fc_n);                             \
    })

/* Each argument is computed once. The types of the two must be alike in sign. */
#define fc_min(a, b) __extension__({ __auto_type fc_a = (a); __auto_type fc_b = (b); fc_a < fc_b ? fc_a : fc_b; })
#define fc_max(a, b) __extension__({ __auto_type fc_a = (a); __auto_type fc_b = (b); fc_a > fc_b ? fc_a : fc_b; })
#define fc_clamp(x, low, high) fc_min(fc_max(x, low), high)

_Static_assert(sizeof(struct fc_request) == 1104 && sizeof(struct fc_readings) == 64, "the regions");
_Static_assert(__builtin_offsetof(struct fc_request, length) == 2 && __builtin_offsetof(struct fc_request, format) == 4, "the region");
_Static_assert(__builtin_offsetof(struct fc_request, has_format) == 6 && __builtin_offsetof(struct fc_request, query_length) == 7, "the region");
_Static_assert(__builtin_offsetof(struct fc_request, query) == 16 && __builtin_offsetof(struct fc_request, payload) == 80, "the region");

#endif
