/* Refuses each allocation of a call in turn: the answer is RDLPP_NO_MEMORY, nothing is written, and
   nothing is kept. */
#include "allocations.h"
#include "rdlpp.h"

#include <stdio.h>
#include <stdlib.h>
#include <string.h>

static const rdlpp_text texts[] = {{"m", 1, "reg[`W];\n", 9}, {"i", 1, "q", 1}};
static const rdlpp_folder folders[] = {{"inc", 3}, {"more", 4}};
static const rdlpp_definition definitions[] = {{"W", 1, "8", 1}, {"V", 1, "9", 1}};

static rdlpp_request asked(void)
{
    rdlpp_request request = rdlpp_standard_request();
    request.texts = texts;
    request.texts_length = 2;
    request.folders = folders;
    request.folders_length = 2;
    request.definitions = definitions;
    request.definitions_length = 2;
    request.path = "m";
    request.path_length = 1;
    return request;
}

static rdlpp_outcome call(char *out, size_t room)
{
    const rdlpp_request request = asked();
    char none[1] = {'#'};
    return rdlpp_preprocess(&request, out, room, none, 0, none, 0);
}

/* Opens, reads to the end and closes. */
static rdlpp_outcome read_all(char *out, size_t room)
{
    const rdlpp_request request = asked();
    rdlpp_handle handle = RDLPP_CLOSED_HANDLE;
    char none[1] = {'#'};
    rdlpp_outcome outcome = rdlpp_open(&request, none, 0, none, 0, &handle);
    if (outcome.status == RDLPP_WHOLE) {
        granted = 0;
        outcome = rdlpp_read(&handle, out, room, none, 0, none, 0);
    }
    rdlpp_close(&handle);
    return outcome;
}

/* Opens twice, and then closes: what the first opening made is given back by the second. */
static rdlpp_outcome open_twice(char *out, size_t room)
{
    const rdlpp_request request = asked();
    rdlpp_handle handle = RDLPP_CLOSED_HANDLE;
    rdlpp_outcome outcome = rdlpp_open(&request, out, 0, out, 0, &handle);
    if (outcome.status == RDLPP_WHOLE) {
        outcome = rdlpp_open(&request, out, 0, out, 0, &handle);
    }
    (void)room;
    rdlpp_close(&handle);
    return outcome;
}

/* Opens, and then opens again with these limits, where each allocation may be refused, and reads to the end. A refusal
   leaves the handle closed, with nothing kept. */
static rdlpp_outcome reopen_by(rdlpp_limits limits, char *out, size_t room)
{
    rdlpp_request request = asked();
    rdlpp_handle handle = RDLPP_CLOSED_HANDLE;
    const long left = granted;
    rdlpp_outcome outcome;
    granted = -1;
    outcome = rdlpp_open(&request, out, 0, out, 0, &handle);
    if (outcome.status != RDLPP_WHOLE || rdlpp_read(&handle, out, 1, out, 0, out, 0).length != 1) {
        outcome.status = RDLPP_CLOSED;
        return outcome;
    }
    out[0] = '#';
    request.limits = limits;
    granted = left;
    outcome = rdlpp_reopen(&request, out, 0, out, 0, &handle);
    if (outcome.status == RDLPP_WHOLE) {
        granted = 0;
        outcome = rdlpp_read(&handle, out, room, out, 0, out, 0);
    } else if (blocks != 0 || handle.is_open) {
        fprintf(stderr, "refusals.c: %ld blocks kept after a refused rdlpp_reopen\n", blocks);
        outcome.status = RDLPP_CLOSED;
    }
    rdlpp_close(&handle);
    return outcome;
}

static rdlpp_outcome reopen_same(char *out, size_t room)
{
    return reopen_by(rdlpp_standard_limits(), out, room);
}

static rdlpp_outcome reopen_smaller(char *out, size_t room)
{
    rdlpp_limits limits = rdlpp_standard_limits();
    limits.depth -= 1;
    return reopen_by(limits, out, room);
}

static rdlpp_outcome reopen_larger(char *out, size_t room)
{
    rdlpp_limits limits = rdlpp_standard_limits();
    limits.line_bytes += 1;
    return reopen_by(limits, out, room);
}

/* A call that gives a text. */
typedef uint32_t give(rdlpp_handle *, const char *, size_t, const char *, size_t);

/* Opens an output whose sources are asked for, gives each by a call, reads to the end and closes. */
static rdlpp_outcome pull_by(give *given, char *out, size_t room)
{
    rdlpp_request request = asked();
    rdlpp_handle handle = RDLPP_CLOSED_HANDLE;
    char name[8], none[1] = {'#'};
    size_t at = 0;
    rdlpp_outcome outcome;
    request.asks = true;
    request.texts_length = 0;
    outcome = rdlpp_open(&request, none, 0, none, 0, &handle);
    while (outcome.status == RDLPP_WHOLE || outcome.status == RDLPP_WANTED) {
        const long left = granted;
        granted = 0;
        outcome = rdlpp_read(&handle, out + at, room - at, name, sizeof name, none, 0);
        at += outcome.length;
        granted = left;
        if (outcome.status != RDLPP_WANTED) {
            break;
        }
        outcome.status = given(&handle, name, outcome.name_length, "reg[`W];\n", 9);
        outcome.length = 0;
    }
    rdlpp_close(&handle);
    return outcome;
}

static rdlpp_outcome pull_all(char *out, size_t room)
{
    return pull_by(rdlpp_give, out, room);
}

static rdlpp_outcome pull_once(char *out, size_t room)
{
    return pull_by(rdlpp_give_once, out, room);
}

static rdlpp_outcome pull_lent(char *out, size_t room)
{
    return pull_by(rdlpp_lend, out, room);
}

/* Gives a text by parts of two bytes. */
static uint32_t give_parts(rdlpp_handle *handle, const char *path, size_t path_length, const char *text, size_t length)
{
    size_t at;
    for (at = 0; at < length; at += 2) {
        const uint32_t status = rdlpp_give_part(handle, text + at, length - at < 2 ? length - at : 2, 0);
        if (status != RDLPP_WHOLE) {
            return status;
        }
    }
    return rdlpp_give(handle, path, path_length, "", 0);
}

static rdlpp_outcome pull_parts(char *out, size_t room)
{
    return pull_by(give_parts, out, room);
}

/* Memory for the bytes that are told to follow a part is asked for with it: these parts ask for none. One that is refused changes
 * nothing. */
static int reserves(void)
{
    static char part[600], longer[5000], out[1100];
    rdlpp_request request = asked();
    rdlpp_handle handle = RDLPP_CLOSED_HANDLE;
    rdlpp_outcome outcome;
    char none[1] = {'#'};
    int is_right;
    memset(part, 'a', sizeof part);
    request.asks = true;
    request.texts_length = 0;
    is_right = rdlpp_open(&request, none, 0, none, 0, &handle).status == RDLPP_WHOLE
        && rdlpp_give_part(&handle, part, 1, 999) == RDLPP_WHOLE;
    granted = 0;
    is_right = is_right && rdlpp_give_part(&handle, part, 500, 0) == RDLPP_WHOLE
        && rdlpp_give_part(&handle, part, 499, 0) == RDLPP_WHOLE
        && rdlpp_give_part(&handle, longer, sizeof longer, 0) == RDLPP_NO_MEMORY
        && rdlpp_give_part(&handle, part, 1, sizeof longer) == RDLPP_NO_MEMORY
        && rdlpp_give_part(&handle, part, 1, SIZE_MAX) == RDLPP_NO_MEMORY;
    granted = -1;
    is_right = is_right && rdlpp_give(&handle, request.path, request.path_length, "", 0) == RDLPP_WHOLE;
    outcome = rdlpp_read(&handle, out, sizeof out, none, 0, none, 0);
    is_right = is_right && outcome.status == RDLPP_WHOLE && outcome.length == 1000 && out[0] == 'a'
        && memcmp(out, out + 1, 999) == 0;
    rdlpp_close(&handle);
    return is_right && blocks == 0;
}

/* Gives two texts once each, and the second again until it is taken: a refusal leaves its path as it was, and keeps nothing. */
static long give_again(void)
{
    long refused = 0;
    for (;;) {
        const rdlpp_request request = asked();
        rdlpp_request asking = request;
        rdlpp_handle handle = RDLPP_CLOSED_HANDLE;
        char none[1] = {'#'};
        uint32_t first, again, other;
        long held;
        asking.asks = true;
        if (rdlpp_open(&asking, none, 0, none, 0, &handle).status != RDLPP_WHOLE
            || rdlpp_give_once(&handle, "a", 1, "first", 5) != RDLPP_WHOLE) {
            return -1;
        }
        held = blocks;
        granted = refused;
        first = rdlpp_give_once(&handle, "b", 1, "second", 6);
        granted = -1;
        if (first == RDLPP_WHOLE) {
            rdlpp_close(&handle);
            return blocks == 0 ? refused : -1;
        }
        /* what was given first went with the call, whose own blocks went too */
        if (first != RDLPP_NO_MEMORY || blocks >= held) {
            fprintf(stderr, "refusals.c: status %u, and %ld blocks of %ld\n", first, blocks, held);
            return -1;
        }
        again = rdlpp_give_once(&handle, "b", 1, "another", 7);
        other = rdlpp_give_once(&handle, "a", 1, "other", 5);
        rdlpp_close(&handle);
        if (again != RDLPP_WHOLE || other != RDLPP_CHANGED || blocks != 0) {
            fprintf(stderr, "refusals.c: %u and %u after refused allocation %ld\n", again, other, refused);
            return -1;
        }
        refused += 1;
    }
}

/* Refuses each allocation of one way in turn, and answers how many there were; -1 where something was wrong. */
static long refuse_each(rdlpp_outcome (*way)(char *, size_t))
{
    long refused = 0;
    for (;;) {
        char out[16] = "###############";
        rdlpp_outcome outcome;
        granted = refused;
        outcome = way(out, sizeof out);
        granted = -1;
        if (blocks != 0) {
            fprintf(stderr, "refusals.c: %ld blocks kept where allocation %ld is refused\n", blocks, refused);
            return -1;
        }
        if (outcome.status == RDLPP_WHOLE) {
            break;
        }
        if (outcome.status != RDLPP_NO_MEMORY || outcome.length != 0 || out[0] != '#') {
            fprintf(stderr, "refusals.c: status %u where allocation %ld is refused\n", outcome.status, refused);
            return -1;
        }
        refused += 1;
    }
    return refused;
}

/* Opening again by the same limits asks for what is copied of the request alone, which opening by others does beside the rest. */
static int reopens(void)
{
    const long whole = refuse_each(read_all), copies = refuse_each(reopen_same);
    return whole > 8 && copies > 8 && copies + 8 < whole
        && refuse_each(reopen_smaller) == whole && refuse_each(reopen_larger) == whole;
}

int main(void)
{
    return refuse_each(call) > 8 && refuse_each(read_all) > 8 && refuse_each(pull_all) > 8
            && refuse_each(pull_once) > 8 && refuse_each(pull_lent) > 8 && refuse_each(pull_parts) > 8 && refuse_each(open_twice) > 16 && give_again() > 4 && reopens() && reserves()
        ? EXIT_SUCCESS : EXIT_FAILURE;
}
