/*
 * nomem IMAGE: refuses each malloc of numzela_server_new, numzela_frame_new and numzela_program_load in
 * turn: NUMZELA_NOMEM, nothing leaks, the handle stays empty. Prints how much memory each handle holds.
 * Then it refuses those of an upload: 5.03, and the server goes on.
 * Link it with -Wl,--wrap=malloc,--wrap=free.
 */
#include <malloc.h>
#include <stdio.h>
#include <stdlib.h>

#include "numzela.h"

static long left = -1; /* mallocs that succeed before one is refused */
static long live, bytes; /* blocks in use, and their bytes */
void *__real_malloc(size_t size);
void __real_free(void *block);

void *__wrap_malloc(size_t size)
{
    if (left == 0)
        return NULL;
    if (left > 0)
        left--;
    void *block = __real_malloc(size);
    live += block != NULL;
    bytes += (long)malloc_usable_size(block);
    return block;
}

void __wrap_free(void *block)
{
    live -= block != NULL;
    bytes -= (long)malloc_usable_size(block);
    __real_free(block);
}

static uint8_t image[9000];
static size_t image_size;

/* Each makes what a handle holds, in a new handle; `kept` then has the handle. */
static union { numzela_server server; numzela_frame frame; numzela_program program; } kept;

static numzela_status make_server(void)
{
    numzela_config config = {0};
    kept.server = (numzela_server){0};
    return numzela_server_new(&kept.server, &config);
}

static void free_server(void)
{
    numzela_server_free(&kept.server);
}

static numzela_status make_frame(void)
{
    kept.frame = (numzela_frame){0};
    return numzela_frame_new(&kept.frame);
}

static void free_frame(void)
{
    numzela_frame_free(&kept.frame);
}

static numzela_status load(void)
{
    numzela_verdict verdict;
    kept.program = (numzela_program){0};
    return numzela_program_load(&kept.program, image, image_size, &verdict);
}

static void free_program(void)
{
    numzela_program_free(&kept.program);
}

static int try_each(const char *name, numzela_status (*make)(void), void (*free_it)(void))
{
    for (long n = 0;; n++) {
        long before = live, bytes_before = bytes;
        left = n;
        numzela_status status = make();
        left = -1;
        if (status == NUMZELA_OK) {
            printf("%s: %ld mallocs refused in turn; it holds %ld bytes in %ld blocks\n", name, n, bytes - bytes_before, live - before);
            free_it();
            return live != before || bytes != bytes_before || !n;
        }
        if (status != NUMZELA_NOMEM || live != before || kept.server.held)
            return 1;
    }
}

static int try_upload(size_t size)
{
    static numzela_datagram out;
    static uint8_t put[9100] = {0x40, 3, 0, 1, 0xb1, 'p', 1, '1', 0xff}; /* PUT /p/1 */
    uint8_t readings[NUMZELA_READINGS] = {0};
    numzela_endpoint from = {{127, 0, 0, 1}, 9};
    numzela_config config = {0};
    numzela_server server = {0};
    long before = live;
    int refused = 0, accepted = 0;
    if (numzela_server_new(&server, &config) != NUMZELA_OK)
        return 1;
    for (size_t i = 0; i < size; i++)
        put[9 + i] = image[i];
    for (int n = 0; n < 12; n++) {
        put[3] = (uint8_t)n;
        left = n;
        numzela_status status = numzela_server_receive(&server, (uint64_t)n, &from, put, 9 + size, readings, &out);
        left = -1;
        if (status != NUMZELA_SEND)
            return 1;
        refused += out.bytes[1] == 0xa3;
        accepted += out.bytes[1] >> 5 == 2;
    }
    numzela_server_free(&server);
    printf("upload: %d answered 5.03, %d accepted\n", refused, accepted);
    return live != before || !refused || !accepted || refused + accepted != 12;
}

int main(int argc, char **argv)
{
    FILE *f = argc == 2 ? fopen(argv[1], "rb") : NULL;
    if (!f)
        return 2;
    image_size = fread(image, 1, sizeof image, f);
    fclose(f);
    return try_each("numzela_server_new", make_server, free_server) || try_each("numzela_frame_new", make_frame, free_frame)
        || try_each("numzela_program_load", load, free_program) || try_upload(image_size);
}
