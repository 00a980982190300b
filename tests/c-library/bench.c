/*
 * bench IMAGE: prints the processor time of a run, of a load, and of a GET and a POST by receive, poll
 * and deadline, as the gateway calls them. Ends with status 2 if a response isn't of class 2.
 */
#include <stdio.h>
#include <string.h>
#include <time.h>

#include "numzela.h"

static uint8_t image[9000], readings[NUMZELA_READINGS];
static size_t image_size;

static double nanoseconds(void)
{
    struct timespec t;
    clock_gettime(CLOCK_PROCESS_CPUTIME_ID, &t);
    return (double)t.tv_sec * 1e9 + (double)t.tv_nsec;
}

static int time_programs(void)
{
    enum { RUNS = 1000000, LOADS = 100000 };
    static uint8_t reply[NUMZELA_REPLY];
    uint8_t vars[NUMZELA_VARS] = {0}, payload;
    numzela_program program = {0};
    numzela_frame frame = {0};
    numzela_verdict verdict;
    numzela_request request = {.is_post = true};
    numzela_response response = {0};
    if (numzela_program_load(&program, image, image_size, &verdict) != NUMZELA_OK || numzela_frame_new(&frame) != NUMZELA_OK)
        return 2;
    double begin = nanoseconds();
    for (long i = 0; i < RUNS; i++) {
        payload = (uint8_t)(0x13 + (i & 3));
        numzela_program_run(&program, &frame, &request, NULL, 0, &payload, 1, readings, vars, verdict.vars_size, reply, sizeof reply, &response);
    }
    printf("run %.0f ns (%u steps the last)\n", (nanoseconds() - begin) / RUNS, response.steps);
    numzela_program_free(&program);
    begin = nanoseconds();
    for (long i = 0; i < LOADS; i++) {
        numzela_program_load(&program, image, image_size, &verdict);
        numzela_program_free(&program);
    }
    printf("load and free %.0f ns\n", (nanoseconds() - begin) / LOADS);
    numzela_frame_free(&frame);
    return 0;
}

static long time_requests(numzela_server *server, uint64_t *now, uint8_t *request, size_t size, const char *name)
{
    enum { ROUNDS = 300, REQUESTS = 1000 };
    static numzela_datagram out;
    numzela_endpoint from = {{127, 0, 0, 1}, 6000};
    long bad = 0;
    double sum = 0;
    for (int round = 0; round < ROUNDS; round++) {
        *now += 300000; /* all exchanges have expired */
        double begin = nanoseconds();
        for (int i = 0; i < REQUESTS; i++) {
            uint64_t deadline;
            request[2] = (uint8_t)(i >> 8);
            request[3] = (uint8_t)i;
            if (numzela_server_receive(server, *now, &from, request, size, readings, &out) != NUMZELA_SEND || out.bytes[1] >> 5 != 2)
                bad++;
            while (numzela_server_poll(server, *now, 1, readings, &out) == NUMZELA_SEND)
                continue;
            numzela_server_deadline(server, &deadline);
        }
        sum += nanoseconds() - begin;
    }
    printf("%s %.0f ns\n", name, sum / ROUNDS / REQUESTS);
    return bad;
}

static int time_server(void)
{
    static numzela_datagram out;
    static uint8_t put[9100] = {0x40, 3, 0, 1, 0xb1, 'p', 1, '1', 0xff};
    uint8_t get[] = {0x41, 1, 0, 2, 0x55, 0xb1, 'r', 1, '1'}, post[] = {0x41, 2, 0, 2, 0x55, 0xb1, 'r', 1, '1', 0xff, 0x13};
    numzela_endpoint from = {{127, 0, 0, 1}, 6000};
    numzela_config config = {.first_id = 7};
    numzela_server server = {0};
    uint64_t now = 0;
    double begin = nanoseconds();
    numzela_server_new(&server, &config);
    printf("new %.0f ns\n", nanoseconds() - begin);
    memcpy(put + 9, image, image_size);
    if (numzela_server_receive(&server, now, &from, put, 9 + image_size, readings, &out) != NUMZELA_SEND || out.bytes[1] >> 5 != 2)
        return 2;
    long bad = 0;
    for (int k = 0; k < 2; k++) {
        bad += time_requests(&server, &now, get, sizeof get, "GET");
        bad += time_requests(&server, &now, post, sizeof post, "POST");
    }
    numzela_server_free(&server);
    return bad ? 2 : 0;
}

int main(int argc, char **argv)
{
    FILE *f = argc == 2 ? fopen(argv[1], "rb") : NULL;
    if (!f)
        return 2;
    image_size = fread(image, 1, sizeof image, f);
    fclose(f);
    return time_programs() || time_server() ? 2 : 0;
}
