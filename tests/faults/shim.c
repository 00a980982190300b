// Preloaded into a program, this allows it its three descriptors alone if FILES is set, and no new thread
// if THREADS is set.
#define _GNU_SOURCE
#include <dlfcn.h>
#include <errno.h>
#include <pthread.h>
#include <stdlib.h>
#include <sys/resource.h>

__attribute__((constructor)) static void leave_no_files(void) {
    struct rlimit three = {3, 3};
    if (getenv("FILES")) {
        setrlimit(RLIMIT_NOFILE, &three);
    }
}

int pthread_create(pthread_t *thread, const pthread_attr_t *attributes, void *(*start)(void *), void *argument) {
    int (*next)(pthread_t *, const pthread_attr_t *, void *(*)(void *), void *) = dlsym(RTLD_NEXT, "pthread_create");
    return getenv("THREADS") ? EAGAIN : next(thread, attributes, start, argument);
}
