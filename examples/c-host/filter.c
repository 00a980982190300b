/*
 * A filter: each line of standard input is the payload of a POST to each program, and each response
 * is a line of standard output. The programs run one after another in one frame, and the variables
 * of each last from line to line.
 *
 *   filter IMAGE.. < lines      at most 8 images; ends with status 1 and names the rule if one is refused
 */
#include <stdio.h>
#include <stdlib.h>
#include <string.h>

#include "numzela.h"

enum { PROGRAMS = 8 };

struct loaded {
    numzela_program program;
    numzela_verdict verdict;
    uint8_t vars[NUMZELA_VARS];
};

static int refuse(const char *name, const numzela_verdict *v)
{
    char text[200];
    size_t size = numzela_rule_text(v->rule, text, sizeof text);
    fprintf(stderr, "%s: V%02u slot %u: %.*s\n", name, v->rule, v->slot, (int)size, text);
    return 1;
}

/* Loads the image of a file. Returns the exit status if that fails, else 0. */
static int load(struct loaded *it, const char *name)
{
    static uint8_t image[16 + 8 * 1024 + 1];
    FILE *file = fopen(name, "rb");
    if (!file)
        return perror(name), 2;
    size_t size = fread(image, 1, sizeof image, file);
    fclose(file);
    numzela_status status = numzela_program_load(&it->program, image, size, &it->verdict);
    if (status == NUMZELA_REFUSED)
        return refuse(name, &it->verdict);
    return status == NUMZELA_OK ? 0 : (fputs("no memory\n", stderr), 1);
}

/* Runs a program on a line, and prints its response. Returns the steps of the run. */
static unsigned long run(struct loaded *it, numzela_frame *frame, const char *line)
{
    static uint8_t reply[NUMZELA_REPLY];
    uint8_t readings[NUMZELA_READINGS] = {0};
    numzela_request request = {.slot = 0, .is_post = true};
    numzela_response response = {0};
    numzela_status status = numzela_program_run(
        &it->program, frame, &request, NULL, 0, (const uint8_t *)line, strcspn(line, "\n"),
        readings, it->vars, it->verdict.vars_size, reply, sizeof reply, &response);
    if (status != NUMZELA_OK) {
        fprintf(stderr, "status %u\n", status);
        exit(1);
    }
    printf("%u.%02u %.*s\n", response.code >> 5, response.code & 31u, (int)response.size,
           (char *)reply);
    return response.steps;
}

int main(int count, char **words)
{
    static struct loaded programs[PROGRAMS];
    static char line[NUMZELA_PAYLOAD + 2];
    numzela_frame frame = {0};
    if (count < 2 || count > PROGRAMS + 1)
        return fputs("filter IMAGE..\n", stderr), 2;
    for (int i = 1; i < count; i++) {
        int status = load(&programs[i - 1], words[i]);
        if (status)
            return status;
    }
    if (numzela_frame_new(&frame) != NUMZELA_OK)
        return fputs("no memory\n", stderr), 1;

    unsigned long steps = 0;
    while (fgets(line, sizeof line, stdin))
        for (int i = 0; i < count - 1; i++)
            steps += run(&programs[i], &frame, line);
    fflush(stdout);
    fprintf(stderr, "steps %lu\n", steps);
    for (int i = 0; i < count - 1; i++)
        numzela_program_free(&programs[i].program);
    numzela_frame_free(&frame);
    return 0;
}
