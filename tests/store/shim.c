// Preloaded into a program, this fails its calls of the disk while the file named by FAIL has a
// word: `full` fails each write and each growth with ENOSPC, and `sync` fails each sync with EIO.
// The time of day is set back by the number of seconds in BACK.
#define _GNU_SOURCE
#include <dlfcn.h>
#include <errno.h>
#include <fcntl.h>
#include <stdio.h>
#include <stdlib.h>
#include <string.h>
#include <sys/types.h>
#include <time.h>
#include <unistd.h>

static int fails(const char *word) {
    char found[16] = "";
    const char *name = getenv("FAIL");
    int file = name ? open(name, O_RDONLY) : -1;
    if (file >= 0) {
        ssize_t size = read(file, found, sizeof found - 1);
        found[size > 0 ? size : 0] = 0;
        close(file);
    }
    return strcmp(found, word) == 0;
}

static int fail(int error) {
    errno = error;
    return -1;
}

#define NEXT(name, type) ((type)dlsym(RTLD_NEXT, name))

int clock_gettime(clockid_t clock, struct timespec *time) {
    const char *back = getenv("BACK");
    int status = NEXT("clock_gettime", int (*)(clockid_t, struct timespec *))(clock, time);
    if (status == 0 && back && clock == CLOCK_REALTIME)
        time->tv_sec -= atol(back);
    return status;
}

int fsync(int file) {
    return fails("sync") ? fail(EIO) : NEXT("fsync", int (*)(int))(file);
}

int fdatasync(int file) {
    return fails("sync") ? fail(EIO) : NEXT("fdatasync", int (*)(int))(file);
}

ssize_t pwrite(int file, const void *bytes, size_t size, off_t at) {
    return fails("full") ? fail(ENOSPC) : NEXT("pwrite", ssize_t(*)(int, const void *, size_t, off_t))(file, bytes, size, at);
}

ssize_t pwrite64(int file, const void *bytes, size_t size, off64_t at) {
    return fails("full") ? fail(ENOSPC) : NEXT("pwrite64", ssize_t(*)(int, const void *, size_t, off64_t))(file, bytes, size, at);
}

int ftruncate(int file, off_t size) {
    return fails("full") ? fail(ENOSPC) : NEXT("ftruncate", int (*)(int, off_t))(file, size);
}
