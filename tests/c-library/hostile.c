/*
 * hostile SEEDS COUNT: passes COUNT mutated datagrams from 64 endpoints to a server, each in a
 * buffer of exactly its size, and polls after each. Prints how many were answered, and by which codes.
 * SEEDS has datagrams, each after its size in two bytes, low byte first. Status 0 if every status
 * is one that numzela.h allows.
 */
#include <stdio.h>
#include <stdlib.h>
#include <string.h>

#include "numzela.h"

static uint64_t state = 88172645463325252u;

static uint64_t next_random(void)
{
    state ^= state << 13;
    state ^= state >> 7;
    state ^= state << 17;
    return state;
}

static uint8_t seeds[64][1500];
static size_t sizes[64];
static int count;

static void read_seeds(const char *name)
{
    FILE *f = fopen(name, "rb");
    unsigned char two[2];
    while (f && count < 64 && fread(two, 1, 2, f) == 2) {
        sizes[count] = two[0] | (size_t)two[1] << 8;
        if (fread(seeds[count], 1, sizes[count], f) != sizes[count])
            exit(9);
        count++;
    }
    if (!count)
        exit(9);
    fclose(f);
}

static size_t mutate(uint8_t *b, size_t z, size_t room)
{
    size_t at;
    switch (next_random() % 5) {
    case 0:
        if (z)
            b[next_random() % z] ^= 1u << next_random() % 8;
        return z;
    case 1:
        if (z)
            b[next_random() % z] = (uint8_t)next_random();
        return z;
    case 2:
        return z ? next_random() % z : z;
    case 3:
        if (z + 8 >= room)
            return z;
        at = next_random() % (z + 1);
        memmove(b + at + 4, b + at, z - at);
        for (int j = 0; j < 4; j++)
            b[at + j] = (uint8_t)next_random();
        return z + 4;
    default:
        if (z <= 6)
            return z;
        at = next_random() % (z - 4);
        memmove(b + at, b + at + 3, z - at - 3);
        return z - 3;
    }
}

static int try_empty_handles(numzela_server *server)
{
    static numzela_datagram out;
    uint8_t readings[NUMZELA_READINGS] = {0};
    numzela_endpoint from = {{1, 2, 3, 4}, 5};
    numzela_config config = {0};
    uint64_t deadline;
    if (numzela_server_receive(server, 1, &from, 0, 0, readings, &out) != NUMZELA_EMPTY
        || numzela_server_poll(server, 1, 0, readings, &out) != NUMZELA_EMPTY
        || numzela_server_advance(server, 1) != NUMZELA_EMPTY
        || numzela_server_deadline(server, &deadline) != NUMZELA_EMPTY)
        return 4;
    if (numzela_server_new(server, &config) != NUMZELA_OK || numzela_server_new(server, &config) != NUMZELA_IN_USE)
        return 3;
    if (numzela_server_receive(server, 1, &from, 0, 0, readings, &out) != NUMZELA_OK)
        return 2;
    numzela_server_free(server);
    numzela_server_free(server);
    return 0;
}

int main(int argc, char **argv)
{
    if (argc != 3)
        return 9;
    read_seeds(argv[1]);
    long n = atol(argv[2]), answered = 0, polled = 0, codes[256] = {0};
    numzela_server server = {0};
    numzela_config config = {.first_id = 7};
    if (numzela_server_new(&server, &config) != NUMZELA_OK)
        return 8;
    uint8_t readings[NUMZELA_READINGS] = {0};
    static numzela_datagram out;
    static uint8_t b[1400];
    uint64_t now = 0;
    for (long i = 0; i < n; i++) {
        int k = (int)(next_random() % (unsigned)count);
        size_t z = sizes[k];
        memcpy(b, seeds[k], z);
        if (z >= 4 && next_random() % 8) {
            b[2] = (uint8_t)next_random();
            b[3] = (uint8_t)next_random();
        }
        for (int m = (int)(next_random() % 4); m > 0; m--)
            z = mutate(b, z, sizeof b);
        numzela_endpoint from = {{127, 0, 0, (uint8_t)(next_random() % 8)}, (uint16_t)(5000 + next_random() % 8)};
        now += next_random() % 700;
        uint8_t *exact = malloc(z ? z : 1);
        memcpy(exact, b, z);
        numzela_status status = numzela_server_receive(&server, now, &from, exact, z, readings, &out);
        free(exact);
        if (status == NUMZELA_SEND) {
            answered++;
            codes[out.bytes[1]]++;
            if (out.size > NUMZELA_DATAGRAM)
                return 7;
        } else if (status != NUMZELA_OK) {
            return 6;
        }
        while ((status = numzela_server_poll(&server, now, (uint16_t)next_random(), readings, &out)) == NUMZELA_SEND)
            if (++polled > 100 * n)
                return 5;
        uint64_t deadline;
        numzela_server_deadline(&server, &deadline);
        if (status != NUMZELA_OK || deadline <= now)
            return 5; /* nothing was left to do at `now` */
    }
    printf("received %ld answered %ld polled %ld\n", n, answered, polled);
    for (int i = 0; i < 256; i++)
        if (codes[i])
            printf(" %d.%02d:%ld", i >> 5, i & 31, codes[i]);
    puts("");
    numzela_server_free(&server);
    return try_empty_handles(&server);
}
