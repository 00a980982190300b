/*
 * A gateway: serves CoAP on a UDP socket with poll and a clock, for the sensor and the relay of
 * device.h.
 *
 *   gateway PORT [DATAGRAMS [IMAGE]]
 *
 * The gateway ends after DATAGRAMS datagrams if that isn't 0, or at SIGTERM or SIGINT. The program
 * of IMAGE is in slot 1 from the start. Clients upload others.
 *
 * A program of version 2 reads the milliseconds since the start in bytes 0 to 7 of the sensor
 * input, and the sensor's value in bytes 8 and 9, the low byte first. If a program answers `on` or
 * `off`, the gateway switches its relay. docs/C-HOST.md explains each step.
 */
#include <arpa/inet.h>
#include <errno.h>
#include <poll.h>
#include <signal.h>
#include <stdio.h>
#include <stdlib.h>
#include <string.h>
#include <sys/random.h>
#include <sys/socket.h>
#include <time.h>
#include <unistd.h>

#include "device.h"
#include "numzela.h"

static volatile sig_atomic_t is_stopped;

static void stop(int number)
{
    (void)number;
    is_stopped = 1;
}

static uint64_t milliseconds(void)
{
    struct timespec t;
    clock_gettime(CLOCK_MONOTONIC, &t);
    return (uint64_t)t.tv_sec * 1000 + (uint64_t)t.tv_nsec / 1000000;
}

static void read_device(uint64_t now, uint8_t readings[NUMZELA_READINGS])
{
    memset(readings, 0, NUMZELA_READINGS);
    for (int i = 0; i < 8; i++)
        readings[i] = (uint8_t)(now >> (8 * i));
    uint16_t value = read_sensor(now);
    readings[8] = (uint8_t)value;
    readings[9] = (uint8_t)(value >> 8);
}

/* Acts on a response or notification whose payload is `on` or `off`. */
static void act(const numzela_datagram *out)
{
    const uint8_t *end = out->bytes + out->size;
    const uint8_t *marker = memchr(out->bytes + 4, 0xff, out->size > 4 ? out->size - 4u : 0);
    size_t size = marker ? (size_t)(end - marker - 1) : 0;
    if (size == 2 && !memcmp(marker + 1, "on", 2))
        set_relay(true);
    if (size == 3 && !memcmp(marker + 1, "off", 3))
        set_relay(false);
}

static void transmit(int fd, const numzela_datagram *out)
{
    struct sockaddr_in to = {.sin_family = AF_INET, .sin_port = htons(out->to.port)};
    memcpy(&to.sin_addr, out->to.address, 4);
    act(out);
    sendto(fd, out->bytes, out->size, 0, (struct sockaddr *)&to, sizeof to);
}

static int open_socket(uint16_t port)
{
    struct sockaddr_in at = {.sin_family = AF_INET, .sin_port = htons(port),
                             .sin_addr.s_addr = htonl(INADDR_LOOPBACK)};
    int fd = socket(AF_INET, SOCK_DGRAM, 0);
    if (fd >= 0 && bind(fd, (struct sockaddr *)&at, sizeof at) == 0)
        return fd;
    perror("socket");
    exit(1);
}

/* Uploads an image to slot 1 as a client does, by PUT of /p/1 in blocks of 1,024 bytes (RFC 7959). The
   client is this program itself, at an address that no datagram comes from. */
static bool install(numzela_server *server, const uint8_t *image, size_t size)
{
    static const uint8_t readings[NUMZELA_READINGS];
    static const numzela_endpoint self = {{0, 0, 0, 0}, 0};
    static numzela_datagram out;
    for (size_t at = 0, n = 0; at < size; at += 1024, n++) {
        size_t part = size - at > 1024 ? 1024 : size - at;
        uint8_t block = (uint8_t)(n << 4 | (at + part < size) << 3 | 6);
        uint8_t put[12 + 1024] = {0x40, 3, 0, (uint8_t)n, 0xb1, 'p', 1, '1', 0xd1, 3, block, 0xff};
        memcpy(put + 12, image + at, part);
        numzela_server_receive(server, 0, &self, put, 12 + part, readings, &out);
    }
    return out.bytes[1] == (2 << 5 | 1); /* 2.01 (Created) */
}

static bool install_file(numzela_server *server, const char *name)
{
    static uint8_t image[16 + 8 * 1024 + 1];
    FILE *file = fopen(name, "rb");
    if (!file)
        return false;
    size_t size = fread(image, 1, sizeof image, file);
    fclose(file);
    return install(server, image, size);
}

static uint16_t random_word(void)
{
    uint16_t word = 0;
    if (getrandom(&word, sizeof word, 0) != sizeof word)
        exit(1);
    return word;
}

/* Waits for a datagram until the server's deadline, at most a minute. Returns whether one came. */
static int wait_for_datagram(int fd, numzela_server *server, uint64_t now)
{
    uint64_t deadline = 0;
    numzela_server_deadline(server, &deadline);
    uint64_t wait = deadline > now ? deadline - now : 0;
    struct pollfd waiting = {.fd = fd, .events = POLLIN};
    return poll(&waiting, 1, wait > 60000 ? 60000 : (int)wait) > 0;
}

int main(int count, char **words)
{
    if (count < 2)
        return 2;
    unsigned long limit = count > 2 ? strtoul(words[2], 0, 10) : 0, received = 0;
    int fd = open_socket((uint16_t)atoi(words[1]));
    struct sigaction action = {.sa_handler = stop};
    sigaction(SIGTERM, &action, 0);
    sigaction(SIGINT, &action, 0);
    setvbuf(stdout, 0, _IOLBF, 0);

    numzela_config config = {.first_id = random_word()};
    numzela_server server = {0};
    if (numzela_server_new(&server, &config) != NUMZELA_OK)
        return 1;
    if (count > 3 && !install_file(&server, words[3]))
        return fprintf(stderr, "no program in %s\n", words[3]), 1;

    static numzela_datagram out;
    static uint8_t buffer[NUMZELA_DATAGRAM + 1];
    uint8_t readings[NUMZELA_READINGS];
    uint64_t start = milliseconds();
    while (!is_stopped && (!limit || received < limit)) {
        int has_datagram = wait_for_datagram(fd, &server, milliseconds() - start);
        uint64_t now = milliseconds() - start;
        read_device(now, readings);
        struct sockaddr_in source;
        socklen_t room = sizeof source;
        ssize_t size = has_datagram ? recvfrom(fd, buffer, sizeof buffer, MSG_DONTWAIT,
                                               (struct sockaddr *)&source, &room) : -1;
        if (size >= 0) {
            numzela_endpoint from = {.port = ntohs(source.sin_port)};
            memcpy(from.address, &source.sin_addr, 4);
            received++;
            if (numzela_server_receive(&server, now, &from, buffer, (size_t)size, readings, &out)
                == NUMZELA_SEND)
                transmit(fd, &out);
        } else {
            numzela_server_advance(&server, now);
        }
        while (numzela_server_poll(&server, now, random_word(), readings, &out) == NUMZELA_SEND)
            transmit(fd, &out);
    }
    numzela_server_free(&server);
    close(fd);
    return 0;
}
