/*
 * numzela.h - Numzela as a C library
 *
 * Level 1, numzela_program_* and numzela_frame_*: verifies program images and runs them. No I/O.
 * Level 2, numzela_server_*: a whole CoAP server (RFC 7252, 7641, 7959) on one thread, as a state
 * machine. The caller has the sockets, the clock and the device.
 *
 * The library makes no system call, has no global variable, starts no thread, reads no clock, and
 * calls only malloc, realloc, free, memcpy, memmove and memset. docs/C-HOST.md leads from nothing
 * to a gateway; examples/c-host has two programs.
 *
 * HANDLES. A handle is a struct of the caller's. Initialize it with zeros:
 * `numzela_server s = {0};`. It is empty then. numzela_program_load, numzela_frame_new and
 * numzela_server_new fill a handle, and the _free of its type empties it. Its fields belong to the
 * library. Don't copy a handle.
 *
 * MEMORY. The library owns what a handle points to; the caller owns everything else. No call keeps
 * a pointer that is passed to it. Pointers must not be NULL, except for a buffer of size 0. What a
 * call writes to must not overlap anything else that is passed to it.
 *
 * THREADS. One handle is used by one thread at a time. Different handles share nothing. A thread
 * that runs programs needs one frame of its own, however many programs it runs. A run uses both
 * handles, so two threads don't run the same numzela_program at the same time, not even in two
 * frames: load its image once for each thread.
 *
 * TIME. Times are milliseconds of a clock that the caller chooses, such as CLOCK_MONOTONIC. A time
 * before the latest one that the server has seen counts as that one.
 */
#ifndef NUMZELA_H
#define NUMZELA_H

#include <stdbool.h>
#include <stddef.h>
#include <stdint.h>

#ifdef __cplusplus
extern "C" {
#endif

/* ---- Status codes ---- */

typedef uint32_t numzela_status;

enum {
    NUMZELA_OK = 0,      /* success; there is nothing to send */
    NUMZELA_SEND = 1,    /* success; a datagram was written: send it */
    NUMZELA_REFUSED = 2, /* the image breaks a rule: see numzela_verdict */
    NUMZELA_NOMEM = 3,   /* malloc failed in _load or _new; nothing changed */
    NUMZELA_EMPTY = 4,   /* a handle is empty; nothing changed */
    NUMZELA_IN_USE = 5,  /* the handle is not empty: free it first; nothing changed */
    NUMZELA_RANGE = 6    /* an argument is out of its range; nothing changed */
};

/* ---- Sizes, in bytes ---- */

enum {
    NUMZELA_READINGS = 64,     /* the sensor input */
    NUMZELA_QUERY = 64,        /* a query, at most */
    NUMZELA_PAYLOAD = 1024,    /* a request's payload, at most */
    NUMZELA_VARS = 256,        /* a program's variables, at most */
    NUMZELA_REPLY = 4096,      /* room for a reply to GET */
    NUMZELA_POST_REPLY = 1024, /* room for a reply to POST */
    NUMZELA_DATAGRAM = 1280    /* a datagram, at most */
};

/* ---- Level 1: programs ---- */

typedef struct { void *at; bool held; } numzela_program;

/* The registers and the memory in which programs run, one at a time. */
typedef struct { void *at; bool held; } numzela_frame;

/* The verdict on an image. If it is refused, all fields except `rule` and `slot` are 0. */
typedef struct {
    uint32_t version;   /* of the image, 1 or 2; 0 if it is refused */
    uint32_t cost;      /* steps of the longest path: no run takes more */
    uint32_t budget;    /* steps that the image allows, 1 to 65,536 */
    uint32_t vars_size; /* size of the variables in bytes, 0 to NUMZELA_VARS */
    uint32_t rule;      /* number of the broken rule (docs/PROGRAMS.md), or 0 */
    uint32_t slot;      /* slot of the instruction that breaks it, from 0, as `fcasm` lists it */
} numzela_verdict;

typedef struct {
    uint8_t slot;      /* number N of the resource /r/N: any; the program reads it */
    bool is_post;      /* POST, else GET */
    bool has_format;   /* whether `format` is given */
    uint16_t format;   /* Content-Format of the payload */
} numzela_request;

typedef struct {
    uint8_t code;   /* CoAP response code: class * 32 + detail, so 69 is 2.05 (Content) */
    bool notify;    /* whether the program asked to notify observers */
    uint16_t size;  /* bytes of the reply that were written */
    uint32_t steps; /* steps that the run took, at most the cost */
} numzela_response;

/*
 * Verifies an image and loads its program into an empty handle.
 *
 *   program  the handle: filled if the result is NUMZELA_OK, else unchanged
 *   image    the image, as `fcasm image` writes it, of `size` bytes; not needed after the call
 *   verdict  written if the result is NUMZELA_OK or NUMZELA_REFUSED
 *
 * Returns NUMZELA_OK, NUMZELA_REFUSED, NUMZELA_NOMEM or NUMZELA_IN_USE.
 */
numzela_status numzela_program_load(numzela_program *program, const uint8_t *image, size_t size,
                                    numzela_verdict *verdict);

/*
 * Makes a frame in an empty handle. Any program can run in any frame. A run doesn't depend on
 * earlier runs in its frame.
 *
 * Returns NUMZELA_OK, NUMZELA_NOMEM or NUMZELA_IN_USE. Unless it is NUMZELA_OK, the handle is
 * unchanged.
 */
numzela_status numzela_frame_new(numzela_frame *frame);

/*
 * Runs the program once, in a frame. A run always ends, after at most `cost` steps. The response
 * depends only on the program, the request with its query and payload, the readings and the
 * variables. Both handles keep their contents.
 *
 *   query     at most NUMZELA_QUERY bytes
 *   payload   at most NUMZELA_PAYLOAD bytes
 *   readings  the sensor input: NUMZELA_READINGS bytes, which the program can read
 *   vars      the variables, of exactly the program's `vars_size` bytes: zeros before the first
 *             run, and then kept by the caller from run to run; read and written
 *   reply     written; `reply_size` is at least NUMZELA_REPLY, or NUMZELA_POST_REPLY for a POST
 *   response  written
 *
 * Returns NUMZELA_OK, NUMZELA_EMPTY if the program's handle or the frame's is empty, or
 * NUMZELA_RANGE if a size is out of its range. Unless it is NUMZELA_OK, nothing is written.
 */
numzela_status numzela_program_run(numzela_program *program, numzela_frame *frame,
                                   const numzela_request *request,
                                   const uint8_t *query, size_t query_size,
                                   const uint8_t *payload, size_t payload_size,
                                   const uint8_t readings[NUMZELA_READINGS],
                                   uint8_t *vars, size_t vars_size,
                                   uint8_t *reply, size_t reply_size,
                                   numzela_response *response);

/* Frees the program, if the handle holds one. The handle is empty then. */
void numzela_program_free(numzela_program *program);

/* Frees the frame, if the handle holds one. The handle is empty then. */
void numzela_frame_free(numzela_frame *frame);

/*
 * Writes, in English, how an image breaks rule number `rule`: at most `size` bytes, without a
 * terminating 0. Returns the number of bytes that were written; 0 if there is no such rule.
 */
size_t numzela_rule_text(uint32_t rule, char *text, size_t size);

/* ---- Level 2: a server ---- */

typedef struct { void *at; bool held; } numzela_server;

/* The IPv4 addresses that begin with the first `prefix` bits of `address`. */
typedef struct {
    uint8_t address[4]; /* in network order: {192, 0, 2, 0} */
    uint8_t prefix;     /* 0 to 32 */
} numzela_network;

/* The initial state of a server. Zeros are the defaults: `numzela_config c = {0};`. */
typedef struct {
    uint64_t first_serial;  /* revision of the empty slots, at most 2^63 - 1; default 0 */
    uint64_t confirm_after; /* time in ms after which an observer's notification is confirmable,
                               1 to 86,400,000; 0: 86,400,000, which is 24 hours */
    uint32_t exchanges;     /* requests remembered for 247 s, 1 to 65,536; 0: 1,024 */
    uint32_t share;         /* requests remembered of one address, at most; 0: 65,536 */
    uint16_t first_id;      /* first message ID of the server's own: use a random number */
    uint8_t manager_count;  /* networks in `managers`, 1 to 4, whose addresses may upload and remove
                               programs; 0: every address may */
    numzela_network managers[4];
} numzela_config;

typedef struct {
    uint8_t address[4]; /* IPv4, in network order */
    uint16_t port;      /* in the host's byte order */
} numzela_endpoint;

typedef struct {
    numzela_endpoint to;
    uint16_t size;
    uint8_t bytes[NUMZELA_DATAGRAM];
} numzela_datagram;

/*
 * Makes a server with 64 empty slots in an empty handle.
 *
 *   server  the handle: filled if the result is NUMZELA_OK, else unchanged
 *   config  see numzela_config; not needed after the call
 *
 * Returns NUMZELA_OK, NUMZELA_NOMEM, NUMZELA_IN_USE, or NUMZELA_RANGE if a field of `config` is out
 * of its range.
 */
numzela_status numzela_server_new(numzela_server *server, const numzela_config *config);

/*
 * Receives a datagram and handles it. Call numzela_server_poll afterwards, until it returns
 * NUMZELA_OK.
 *
 *   now       the time in ms
 *   from      the endpoint that sent the datagram
 *   bytes     the datagram, of `size` bytes; if it is longer than NUMZELA_DATAGRAM, pass at least
 *             one byte more than that, so that it is recognized as too long
 *   readings  the sensor input of a program that runs
 *   datagram  the response, written if the result is NUMZELA_SEND
 *
 * Returns NUMZELA_SEND, NUMZELA_OK if there is no response, or NUMZELA_EMPTY. If malloc fails
 * in the upload of a program, the result is NUMZELA_SEND and the response is 5.03 (Service
 * Unavailable): the program's slot is unchanged, and the server remembers the request, like any
 * other.
 */
numzela_status numzela_server_receive(numzela_server *server, uint64_t now, const numzela_endpoint *from,
                                      const uint8_t *bytes, size_t size,
                                      const uint8_t readings[NUMZELA_READINGS],
                                      numzela_datagram *datagram);

/*
 * Advances the server's clock to `now`, in ms, if no datagram was received. Call
 * numzela_server_poll afterwards, until it returns NUMZELA_OK.
 *
 * Returns NUMZELA_OK or NUMZELA_EMPTY.
 */
numzela_status numzela_server_advance(numzela_server *server, uint64_t now);

/*
 * Performs the work that is pending at `now`, in ms, up to the next datagram to send: a
 * retransmission or a notification. Call it again until it returns NUMZELA_OK.
 *
 *   random    a new random number, which determines the timeout of a confirmable notification
 *             (RFC 7252, section 4.2)
 *   readings  the sensor input of a program that runs
 *   datagram  written if the result is NUMZELA_SEND
 *
 * Returns NUMZELA_SEND, NUMZELA_OK if no work is pending, or NUMZELA_EMPTY. NUMZELA_OK is also
 * returned if none of the server's message IDs is available: the notification waits for the next
 * poll. The call doesn't need malloc.
 */
numzela_status numzela_server_poll(numzela_server *server, uint64_t now, uint16_t random,
                                   const uint8_t readings[NUMZELA_READINGS],
                                   numzela_datagram *datagram);

/*
 * Writes a time in ms before which there is nothing to do unless a datagram is received. The caller
 * may sleep until then; with UINT64_MAX, until a datagram is received.
 *
 * Returns NUMZELA_OK or NUMZELA_EMPTY.
 */
numzela_status numzela_server_deadline(numzela_server *server, uint64_t *deadline);

/* Frees the server, if the handle holds one. The handle is empty then. */
void numzela_server_free(numzela_server *server);

#ifdef __cplusplus
}
#endif

#endif
