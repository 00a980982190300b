/*
 * config: tries what a server's configuration may be, and what managers may do.
 * Prints the line that failed and ends with status 1, or with 0.
 */
#include <stdio.h>
#include <string.h>

#include "numzela.h"

#define CHECK(holds) do { if (!(holds)) return printf("config.c:%d: %s\n", __LINE__, #holds), 1; } while (0)

static numzela_status made_by(numzela_config config)
{
    numzela_server server = {0};
    numzela_status status = numzela_server_new(&server, &config);
    numzela_server_free(&server);
    return status;
}

/* Ranges, by RFC 7641, 4.5 (24 hours), and by the header. */
static int try_ranges(void)
{
    CHECK(made_by((numzela_config){0}) == NUMZELA_OK);
    CHECK(made_by((numzela_config){.exchanges = 65536, .share = UINT32_MAX}) == NUMZELA_OK);
    CHECK(made_by((numzela_config){.exchanges = 65537}) == NUMZELA_RANGE);
    CHECK(made_by((numzela_config){.confirm_after = 86400000}) == NUMZELA_OK);
    CHECK(made_by((numzela_config){.confirm_after = 86400001}) == NUMZELA_RANGE);
    CHECK(made_by((numzela_config){.first_serial = INT64_MAX}) == NUMZELA_OK);
    CHECK(made_by((numzela_config){.first_serial = (uint64_t)INT64_MAX + 1}) == NUMZELA_RANGE);
    CHECK(made_by((numzela_config){.manager_count = 4}) == NUMZELA_OK);
    CHECK(made_by((numzela_config){.manager_count = 5}) == NUMZELA_RANGE);
    CHECK(made_by((numzela_config){.managers = {{{0}, 32}}}) == NUMZELA_OK);
    CHECK(made_by((numzela_config){.managers = {{{0}, 33}}}) == NUMZELA_RANGE);
    CHECK(made_by((numzela_config){.managers = {{{0}, 0}, {{0}, 0}, {{0}, 0}, {{0}, 33}}}) == NUMZELA_RANGE);
    return 0;
}

/* Returns the code of the response to a DELETE of /p/1 from this address, or 0. */
static int deleted_by(numzela_server *server, uint8_t a, uint8_t b, uint8_t c, uint8_t d)
{
    static uint8_t message_id;
    static numzela_datagram out;
    uint8_t request[] = {0x40, 4, 0, ++message_id, 0xb1, 'p', 1, '1'};
    uint8_t readings[NUMZELA_READINGS] = {0};
    numzela_endpoint from = {{a, b, c, d}, 5683};
    if (numzela_server_receive(server, 1, &from, request, sizeof request, readings, &out) != NUMZELA_SEND)
        return 0;
    /* an acknowledgement of this message ID, to where the request came from */
    if (out.bytes[0] != 0x60 || out.bytes[3] != message_id || memcmp(&out.to, &from, sizeof from))
        return 0;
    return out.bytes[1];
}

/* 2.02 (Deleted) to managers, also of an empty slot (RFC 7252, 5.8.4); 4.03 (Forbidden) to others. */
static int try_managers(void)
{
    enum { DELETED = 2 << 5 | 2, FORBIDDEN = 4 << 5 | 3 };
    numzela_server server = {0};
    numzela_config config = {.manager_count = 2, .managers = {{{192, 0, 2, 0}, 24}, {{10, 0, 0, 7}, 32}}};
    CHECK(numzela_server_new(&server, &config) == NUMZELA_OK);
    CHECK(deleted_by(&server, 192, 0, 2, 200) == DELETED);
    CHECK(deleted_by(&server, 192, 0, 3, 1) == FORBIDDEN);
    CHECK(deleted_by(&server, 10, 0, 0, 7) == DELETED);
    CHECK(deleted_by(&server, 10, 0, 0, 8) == FORBIDDEN);
    CHECK(deleted_by(&server, 0, 0, 0, 0) == FORBIDDEN);
    numzela_server_free(&server);
    config = (numzela_config){0};
    CHECK(numzela_server_new(&server, &config) == NUMZELA_OK);
    CHECK(deleted_by(&server, 192, 0, 3, 1) == DELETED);
    numzela_server_free(&server);
    return 0;
}

/* A program of two instructions: r0 = 69 (2.05), exit; without variables, with a budget of 2. */
static const uint8_t image[] = {'F', 'C', 'B', '1', 0, 0, 2, 0, 2, 0, 0, 0, 0, 0, 0, 0,
                                0xb7, 0, 0, 0, 69, 0, 0, 0, 0x95, 0, 0, 0, 0, 0, 0, 0};

/* Receives a datagram at a time, from an address that ends with `d`, and returns the status. */
static numzela_status received(numzela_server *server, uint64_t now, uint8_t d, const uint8_t *bytes, size_t size, numzela_datagram *out)
{
    uint8_t readings[NUMZELA_READINGS] = {0};
    numzela_endpoint from = {{127, 0, 0, d}, 5683};
    return numzela_server_receive(server, now, &from, bytes, size, readings, out);
}

/* The first message ID is that of the first non-confirmable response; the links of an empty server are empty. */
static int try_first_id(void)
{
    static numzela_datagram out;
    static const uint8_t discover[] = {0x50, 1, 0, 1, 0xbb, '.', 'w', 'e', 'l', 'l', '-', 'k', 'n', 'o', 'w', 'n', 4, 'c', 'o', 'r', 'e'};
    numzela_server server = {0};
    numzela_config config = {.first_id = 0x1234};
    CHECK(numzela_server_new(&server, &config) == NUMZELA_OK);
    CHECK(received(&server, 0, 1, discover, sizeof discover, &out) == NUMZELA_SEND);
    CHECK(out.bytes[0] == 0x50 && out.bytes[1] == (2 << 5 | 5) && out.bytes[2] == 0x12 && out.bytes[3] == 0x34);
    numzela_server_free(&server);
    return 0;
}

/* Returns the codes of the responses to three new confirmable requests, two of one address and one of another. */
static void limited(numzela_config config, int codes[3])
{
    static numzela_datagram out;
    static const uint8_t from[3] = {1, 1, 2};
    numzela_server server = {0};
    numzela_server_new(&server, &config);
    for (uint8_t i = 0; i < 3; i++) {
        uint8_t request[] = {0x40, 4, 0, i, 0xb1, 'p', 1, '1'};
        codes[i] = received(&server, 0, from[i], request, sizeof request, &out) == NUMZELA_SEND ? out.bytes[1] : 0;
    }
    numzela_server_free(&server);
}

/* 5.03 (Service Unavailable) above a limit (docs/OPERATING.md, "How many clients"). */
static int try_limits(void)
{
    enum { DELETED = 2 << 5 | 2, UNAVAILABLE = 5 << 5 | 3 };
    int codes[3];
    limited((numzela_config){0}, codes);
    CHECK(codes[0] == DELETED && codes[1] == DELETED && codes[2] == DELETED);
    limited((numzela_config){.share = 1}, codes);
    CHECK(codes[0] == DELETED && codes[1] == UNAVAILABLE && codes[2] == DELETED);
    limited((numzela_config){.exchanges = 2}, codes);
    CHECK(codes[0] == DELETED && codes[1] == DELETED && codes[2] == UNAVAILABLE);
    return 0;
}

/* Returns the type of the notification of a changed program, 5 ms after the registration; 9 if there is none. */
static int notified_after(uint64_t confirm_after)
{
    static const uint8_t put[] = {0x40, 3, 0, 1, 0xb1, 'p', 1, '1', 0xff};
    static const uint8_t observe[] = {0x51, 1, 0, 2, 7, 0x60, 0x51, 'r', 1, '1'};
    static numzela_datagram out;
    uint8_t upload[sizeof put + sizeof image], readings[NUMZELA_READINGS] = {0};
    numzela_server server = {0};
    numzela_config config = {.confirm_after = confirm_after};
    memcpy(upload, put, sizeof put);
    memcpy(upload + sizeof put, image, sizeof image);
    numzela_server_new(&server, &config);
    int type = 9;
    if (received(&server, 0, 1, upload, sizeof upload, &out) == NUMZELA_SEND
        && received(&server, 0, 2, observe, sizeof observe, &out) == NUMZELA_SEND
        && numzela_server_poll(&server, 0, 0, readings, &out) == NUMZELA_OK) {
        upload[3] = 3; /* the message ID of another upload */
        if (received(&server, 5, 1, upload, sizeof upload, &out) == NUMZELA_SEND
            && numzela_server_poll(&server, 5, 0, readings, &out) == NUMZELA_SEND && out.to.address[3] == 2)
            type = out.bytes[0] >> 4 & 3;
    }
    numzela_server_free(&server);
    return type;
}

/* Non-confirmable (type 1) before that time, confirmable (type 0) after it. */
static int try_confirm_after(void)
{
    CHECK(notified_after(0) == 1);
    CHECK(notified_after(6) == 1);
    CHECK(notified_after(4) == 0);
    return 0;
}

int main(void)
{
    return try_ranges() || try_managers() || try_first_id() || try_limits() || try_confirm_after();
}
