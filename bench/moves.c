// Counts the bytes that a program passes to memcpy, memset and memmove, if it is loaded before the C
// library. It prints them on standard error at the program's end: the bytes of each, and the number of
// calls of memcpy and memset with at least 8,000 bytes.
//
//     gcc -O2 -fPIC -shared -fno-builtin -o moves.so bench/moves.c
//     LD_PRELOAD=./moves.so crates/fcd/out/fcd play < lines
#include <stddef.h>
#include <stdio.h>
#include <sys/syscall.h>
#include <unistd.h>

enum { LARGE = 8000 };

static size_t copied, zeroed, moved, large_copies, large_zeroings;

static void add(size_t *count, size_t more) { __atomic_fetch_add(count, more, __ATOMIC_RELAXED); }

void *memcpy(void *restrict to, const void *restrict from, size_t size) {
    add(&copied, size);
    add(&large_copies, size >= LARGE);
    void *start = to;
    __asm__ volatile("rep movsb" : "+D"(to), "+S"(from), "+c"(size) : : "memory");
    return start;
}

void *memset(void *to, int byte, size_t size) {
    add(&zeroed, size);
    add(&large_zeroings, size >= LARGE);
    void *start = to;
    __asm__ volatile("rep stosb" : "+D"(to), "+c"(size) : "a"(byte) : "memory");
    return start;
}

void *memmove(void *to, const void *from, size_t size) {
    add(&moved, size);
    unsigned char *out = to;
    const unsigned char *in = from;
    if (out <= in) {
        for (size_t k = 0; k < size; k++) out[k] = in[k];
    } else {
        for (size_t k = size; k > 0; k--) out[k - 1] = in[k - 1];
    }
    return to;
}

static void tell(void) {
    char text[128];
    int size = snprintf(text, sizeof text, "%zu %zu %zu %zu %zu\n", copied, zeroed, moved, large_copies, large_zeroings);
    if (write(2, text, size) != size) return;
}

// fcd ends by this one, and runs no destructors.
void _exit(int status) {
    tell();
    syscall(SYS_exit_group, status);
    __builtin_unreachable();
}
