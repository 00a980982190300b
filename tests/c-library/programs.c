/*
 * programs IMAGE: tries programs and frames: the statuses, the ranges of a run, and several programs in
 * one frame, of which IMAGE, the thermostat of examples/c, is one. Prints the line that failed and ends
 * with status 1, or with 0.
 */
#include <stdio.h>
#include <string.h>

#include "numzela.h"

#define CHECK(holds) do { if (!(holds)) return printf("programs.c:%d: %s\n", __LINE__, #holds), 1; } while (0)

/* A program of two instructions: r0 = 69 (2.05), exit; without variables, with a budget of 2. */
static const uint8_t plain[] = {'F', 'C', 'B', '1', 0, 0, 2, 0, 2, 0, 0, 0, 0, 0, 0, 0,
                                0xb7, 0, 0, 0, 69, 0, 0, 0, 0x95, 0, 0, 0, 0, 0, 0, 0};

/* 4.03 unless the payload begins with `k` (docs/PROGRAMS.md, "Tasks"). */
static const uint8_t keyed[] = {'F', 'C', 'B', '1', 0, 0, 7, 0, 7, 0, 0, 0, 0, 0, 0, 0,
                                0x71, 0x14, 0x50, 0, 0, 0, 0, 0, 0x72, 0x0a, 0xff, 0xff, 0x6b, 0, 0, 0,
                                0x71, 0xa5, 0xff, 0xff, 0, 0, 0, 0, 0xb7, 0, 0, 0, 0, 0, 0, 0,
                                0x1d, 0x54, 1, 0, 0, 0, 0, 0, 0xb7, 0, 0, 0, 0x83, 0, 0, 0,
                                0x95, 0, 0, 0, 0, 0, 0, 0};

enum { CONTENT = 2 << 5 | 5, CHANGED = 2 << 5 | 4, FORBIDDEN = 4 << 5 | 3, FILL = 0xaa };

static uint8_t readings[NUMZELA_READINGS], reply[NUMZELA_REPLY], payload[NUMZELA_PAYLOAD + 1];
static numzela_response response;

/* Runs a program without a query. */
static numzela_status run(numzela_program *program, numzela_frame *frame, bool is_post, const void *bytes, size_t size,
                          uint8_t *vars, size_t vars_size)
{
    numzela_request request = {.is_post = is_post};
    return numzela_program_run(program, frame, &request, NULL, 0, bytes, size, readings, vars, vars_size, reply, sizeof reply, &response);
}

static int try_handles(void)
{
    numzela_program program = {0};
    numzela_frame frame = {0};
    numzela_verdict verdict;
    response.steps = 77;
    CHECK(run(&program, &frame, false, NULL, 0, NULL, 0) == NUMZELA_EMPTY);
    CHECK(numzela_frame_new(&frame) == NUMZELA_OK && frame.held);
    CHECK(numzela_frame_new(&frame) == NUMZELA_IN_USE && frame.held);
    CHECK(run(&program, &frame, false, NULL, 0, NULL, 0) == NUMZELA_EMPTY && frame.held);
    CHECK(numzela_program_load(&program, plain, sizeof plain - 1, &verdict) == NUMZELA_REFUSED && verdict.rule == 1 && !program.held);
    CHECK(numzela_program_load(&program, plain, sizeof plain, &verdict) == NUMZELA_OK && program.held);
    CHECK(verdict.version == 1 && verdict.cost == 2 && verdict.budget == 2 && verdict.vars_size == 0);
    CHECK(numzela_program_load(&program, plain, sizeof plain, &verdict) == NUMZELA_IN_USE && program.held);
    numzela_frame_free(&frame);
    numzela_frame_free(&frame);
    CHECK(!frame.held && run(&program, &frame, false, NULL, 0, NULL, 0) == NUMZELA_EMPTY && program.held);
    CHECK(response.steps == 77);
    numzela_program_free(&program);
    numzela_program_free(&program);
    CHECK(!program.held);
    return 0;
}

static int try_ranges(void)
{
    uint8_t vars[8];
    numzela_program program = {0};
    numzela_frame frame = {0};
    numzela_verdict verdict;
    numzela_request get = {0}, post = {.is_post = true};
    CHECK(numzela_program_load(&program, plain, sizeof plain, &verdict) == NUMZELA_OK && numzela_frame_new(&frame) == NUMZELA_OK);
    CHECK(run(&program, &frame, false, NULL, 0, NULL, 0) == NUMZELA_OK);
    CHECK(response.code == CONTENT && response.steps == 2 && response.size == 0 && !response.notify);
    CHECK(run(&program, &frame, false, payload, 1024, NULL, 0) == NUMZELA_OK);
    CHECK(run(&program, &frame, false, payload, 1025, NULL, 0) == NUMZELA_RANGE && frame.held);
    CHECK(run(&program, &frame, false, NULL, 0, vars, 8) == NUMZELA_RANGE);
    CHECK(numzela_program_run(&program, &frame, &get, payload, 64, 0, 0, readings, 0, 0, reply, sizeof reply, &response) == NUMZELA_OK);
    CHECK(numzela_program_run(&program, &frame, &get, payload, 65, 0, 0, readings, 0, 0, reply, sizeof reply, &response) == NUMZELA_RANGE);
    CHECK(numzela_program_run(&program, &frame, &get, 0, 0, 0, 0, readings, 0, 0, reply, NUMZELA_REPLY - 1, &response) == NUMZELA_RANGE);
    CHECK(numzela_program_run(&program, &frame, &post, 0, 0, 0, 0, readings, 0, 0, reply, NUMZELA_POST_REPLY, &response) == NUMZELA_OK);
    CHECK(numzela_program_run(&program, &frame, &post, 0, 0, 0, 0, readings, 0, 0, reply, NUMZELA_POST_REPLY - 1, &response) == NUMZELA_RANGE);
    numzela_program_free(&program);
    numzela_frame_free(&frame);
    return 0;
}

/* Whether the last run answered by this code and text, and wrote no byte after the text. */
static bool answered(uint8_t code, const char *text)
{
    bool is = response.code == code && response.size == strlen(text) && !memcmp(reply, text, response.size) && reply[response.size] == FILL;
    memset(reply, FILL, sizeof reply);
    return is;
}

/* Two thermostats and a third program share a frame: each has its own state, and none sees another's run. */
static int try_one_frame(const uint8_t *image, size_t size)
{
    numzela_program cold = {0}, warm = {0}, key = {0};
    numzela_frame frame = {0};
    numzela_verdict verdict;
    uint8_t of_cold[8] = {0}, of_warm[8] = {0};
    CHECK(numzela_program_load(&cold, image, size, &verdict) == NUMZELA_OK && verdict.vars_size == 8);
    CHECK(numzela_program_load(&warm, image, size, &verdict) == NUMZELA_OK);
    CHECK(numzela_program_load(&key, keyed, sizeof keyed, &verdict) == NUMZELA_OK && verdict.cost == 7);
    CHECK(numzela_frame_new(&frame) == NUMZELA_OK);
    memset(reply, FILL, sizeof reply);
    for (int n = 0; n < 100; n++) {
        memset(payload, 'k', sizeof payload);
        CHECK(run(&key, &frame, false, payload, NUMZELA_PAYLOAD, NULL, 0) == NUMZELA_OK && answered(CONTENT, ""));
        CHECK(run(&key, &frame, false, NULL, 0, NULL, 0) == NUMZELA_OK && answered(FORBIDDEN, ""));
        CHECK(run(&cold, &frame, true, "\x13", 1, of_cold, 8) == NUMZELA_OK && response.notify == (n == 0) && answered(CHANGED, "on"));
        CHECK(run(&warm, &frame, true, "\x16", 1, of_warm, 8) == NUMZELA_OK && !response.notify && answered(CHANGED, "off"));
        CHECK(run(&cold, &frame, false, NULL, 0, of_cold, 8) == NUMZELA_OK && answered(CONTENT, "on"));
    }
    numzela_program_free(&cold);
    numzela_program_free(&warm);
    CHECK(run(&key, &frame, true, "k", 1, NULL, 0) == NUMZELA_OK && answered(CHANGED, ""));
    numzela_program_free(&key);
    numzela_frame_free(&frame);
    return 0;
}

static int try_rule_text(void)
{
    char text[8];
    CHECK(numzela_rule_text(18, text, sizeof text) == 0);
    CHECK(numzela_rule_text(8, text, sizeof text) == 8 && !memcmp(text, "r10 is w", 8));
    return 0;
}

int main(int count, char **words)
{
    static uint8_t image[9000];
    FILE *f = count == 2 ? fopen(words[1], "rb") : NULL;
    if (!f)
        return 2;
    size_t size = fread(image, 1, sizeof image, f);
    fclose(f);
    return try_handles() || try_ranges() || try_one_frame(image, size) || try_rule_text();
}
