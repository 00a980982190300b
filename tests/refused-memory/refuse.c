// Preloaded into a program, this refuses the Nth request for memory of its thread K, if REFUSE is N and
// THREAD is K, and reports it on descriptor 9. Threads are numbered from 0 in the order of their first
// requests, so the Nth request doesn't depend on the speed of threads.
#include <stdlib.h>
#include <unistd.h>

extern void *__libc_malloc(size_t size);
extern void *__libc_realloc(void *old, size_t size);

// The number of the thread that asks, and how often it asked. (Of this model, they need no memory of their own.)
static __thread int thread __attribute__((tls_model("initial-exec"))) = -1;
static __thread long asked __attribute__((tls_model("initial-exec"))) = 0;

static int is_refused(void) {
    static int threads = 0;
    const char *refuse = getenv("REFUSE"), *number = getenv("THREAD");
    if (!refuse || !number) {
        return 0;
    }
    if (thread < 0) {
        thread = __atomic_fetch_add(&threads, 1, __ATOMIC_SEQ_CST);
    }
    if (thread != atoi(number) || ++asked != atol(refuse)) {
        return 0;
    }
    if (write(9, "refused\n", 8) != 8) {
        abort();
    }
    return 1;
}

void *malloc(size_t size) {
    return is_refused() ? NULL : __libc_malloc(size);
}

void *realloc(void *old, size_t size) {
    return is_refused() ? NULL : __libc_realloc(old, size);
}
