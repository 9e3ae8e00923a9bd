/* Calls of the library over a small source: by a handle of its own for each, and by one that is opened again.
 *
 *     small BYTES CALLS
 *
 * Prints the processor's time of a call in each way, in microseconds. */
#define _POSIX_C_SOURCE 199309L
#include "rdlpp.h"

#include <stdio.h>
#include <stdlib.h>
#include <string.h>
#include <time.h>

#define OUT_ROOM 65536

static const char piece[] =
    "`define W 8\nreg { field { sw = rw; } f[`W] = 0; } r0;\n`ifdef W\nreg { field {} f; } r1;\n`endif\n";

static char out[OUT_ROOM], name[1024], word[128];

static double microseconds(void)
{
    struct timespec now;
    clock_gettime(CLOCK_PROCESS_CPUTIME_ID, &now);
    return 1e6 * (double)now.tv_sec + 1e-3 * (double)now.tv_nsec;
}

/* A source of so many bytes: the piece as often as it fits, and blanks. */
static char *source_of(size_t bytes)
{
    const size_t length = sizeof piece - 1;
    char *source = malloc(bytes);
    if (source == NULL) {
        exit(2);
    }
    memset(source, ' ', bytes);
    for (size_t at = 0; at + length <= bytes; at += length) {
        memcpy(source + at, piece, length);
    }
    source[bytes - 1] = '\n';
    return source;
}

/* Reads the output of a request, by a handle that is closed after it or that stays. */
static void call(const rdlpp_request *request, rdlpp_handle *handle, bool stays)
{
    rdlpp_outcome outcome = (stays ? rdlpp_reopen : rdlpp_open)(request, name, sizeof name, word, sizeof word, handle);
    if (outcome.status == RDLPP_WHOLE) {
        do {
            outcome = rdlpp_read(handle, out, sizeof out, name, sizeof name, word, sizeof word);
        } while (outcome.status == RDLPP_MORE);
    }
    if (outcome.status != RDLPP_WHOLE) {
        fprintf(stderr, "status %u, fault %u\n", outcome.status, outcome.number);
        exit(1);
    }
    if (!stays) {
        rdlpp_close(handle);
    }
}

static double time_of(const rdlpp_request *request, long calls, bool stays)
{
    rdlpp_handle handle = RDLPP_CLOSED_HANDLE;
    const double began = microseconds();
    for (long at = 0; at < calls; at += 1) {
        call(request, &handle, stays);
    }
    const double spent = microseconds() - began;
    rdlpp_close(&handle);
    return spent / (double)calls;
}

int main(int count, char **words)
{
    const long bytes = count == 3 ? strtol(words[1], NULL, 10) : 0;
    const long calls = count == 3 ? strtol(words[2], NULL, 10) : 0;
    if (bytes < 1 || calls < 1) {
        fprintf(stderr, "usage: small BYTES CALLS\n");
        return 2;
    }
    char *source = source_of((size_t)bytes);
    rdlpp_text text = {"m", 1, source, (size_t)bytes};
    rdlpp_request request = rdlpp_standard_request();
    request.texts = &text;
    request.texts_length = 1;
    request.path = "m";
    request.path_length = 1;
    const double own = time_of(&request, calls, false);
    printf("%.1f %.1f\n", own, time_of(&request, calls, true));
    free(source);
    return 0;
}
