/* Runs a program on this computer, compiled by its C compiler: try.py compares it with `fcasm run`.
   The helpers are those of docs/PROGRAMS.md. Each line of standard input is a run: method (1 GET, 2
   POST), payload, query, variables and readings in hex, `-` if there are none. Each line of output
   has the results: code, reply, variables, and the notify flag. */
#include <fc.h>
#include <stdio.h>
#include <string.h>

static struct fc_request request;
static fc_u8 vars[256], reply[4096];
static fc_u64 vars_size, reply_size, has_notice;

fc_u64 payload_len(void) { return request.length; }
fc_u64 payload_byte(fc_u64 i) { return i < request.length ? request.payload[i] : FC_NO_BYTE; }

fc_u64 var_get(fc_u64 i)
{
    fc_u64 x = 0;
    if (i < vars_size / 8)
        memcpy(&x, vars + 8 * i, 8);
    return x;
}

fc_u64 var_put(fc_u64 i, fc_u64 x)
{
    if (i >= vars_size / 8)
        return 0;
    memcpy(vars + 8 * i, &x, 8);
    return 1;
}

fc_u64 reply_put(const void *p, fc_u64 n)
{
    if (n > (request.method == FC_GET ? FC_REPLY_GET : FC_REPLY_POST) - reply_size)
        return 0;
    memcpy(reply + reply_size, p, n);
    reply_size += n;
    return 1;
}

fc_u64 reply_byte(fc_u64 x)
{
    fc_u8 byte = x;
    return reply_put(&byte, 1);
}

fc_u64 notify(void)
{
    has_notice = 1;
    return 0;
}

/* The program's source, with its function named run; VARS is the type that its parameter points to. */
#include PROGRAM

static fc_u64 bytes_of(const char *hex, fc_u8 *to)
{
    fc_u64 n = 0;
    unsigned byte;
    for (; hex[0] != '-' && sscanf(hex + 2 * n, "%2x", &byte) == 1; n++)
        to[n] = byte;
    return n;
}

static void show(const fc_u8 *bytes, fc_u64 n)
{
    printf(n ? " " : " -");
    for (fc_u64 i = 0; i < n; i++)
        printf("%02x", bytes[i]);
}

int main(void)
{
    static char line[5][2100];
    unsigned method;
    while (scanf("%u %2099s %2099s %2099s %2099s", &method, line[0], line[1], line[2], line[3]) == 5) {
        struct fc_readings readings;
        memset(&request, 0, sizeof request);
        memset(&readings, 0, sizeof readings);
        request.method = method;
        request.length = bytes_of(line[0], request.payload);
        request.query_length = bytes_of(line[1], request.query);
        vars_size = bytes_of(line[2], vars);
        bytes_of(line[3], (fc_u8 *)&readings);
        reply_size = has_notice = 0;
        fc_u64 code = ((fc_u64 (*)(const void *, void *, fc_u64, const void *))run)(&request, vars, request.length, &readings);
        int success = method == FC_GET ? FC_CONTENT : FC_CHANGED;
        int answer = code == FC_OK || code == (fc_u64)success                                       ? success
                     : code == FC_BAD_REQUEST || code == FC_FORBIDDEN || code == FC_NOT_FOUND ? (int)code
                                                                                                      : 0xa0;
        printf("%d.%02d", answer >> 5, answer & 31);
        show(reply, reply_size);
        show(vars, vars_size);
        puts(has_notice ? " yes" : " no");
    }
    return 0;
}
