/* Outputs that are read piece by piece from C: every size of a buffer, faults, handles that are closed. */
#include "checking.h"
#include "rdlpp.h"

#include <stdio.h>
#include <stdlib.h>
#include <string.h>

#define ROOM 64

/* What reads of a handle told: all bytes of the output, and how it ended. */
struct read {
    rdlpp_outcome outcome;
    char out[ROOM];
    size_t length;
    char name[ROOM];
    char word[ROOM];
};

static rdlpp_outcome open_text(rdlpp_handle *handle, const char *source, const char *definition)
{
    rdlpp_request request = rdlpp_standard_request();
    char *copy = malloc(strlen(source) + 1);
    rdlpp_text texts[] = {{"m", 1, NULL, 0}, {"inc/i", 5, "q", 1}};
    const rdlpp_folder folders[] = {{"inc", 3}};
    const rdlpp_definition definitions[] = {{definition, strlen(definition), "8", 1}};
    char none[1] = {'#'};
    rdlpp_outcome outcome;
    strcpy(copy, source);
    texts[0].text = copy;
    texts[0].text_length = strlen(source);
    request.texts = texts;
    request.texts_length = 2;
    request.folders = folders;
    request.folders_length = 1;
    request.definitions = definitions;
    request.definitions_length = 1;
    request.path = "m";
    request.path_length = 1;
    outcome = rdlpp_open(&request, none, 0, none, 0, handle);
    memset(copy, '?', strlen(source));
    free(copy);
    return outcome;
}

/* Reads to the end with a buffer of so many bytes, after which there are marks. */
static struct read read_all(rdlpp_handle *handle, size_t room)
{
    struct read read;
    memset(&read, '#', sizeof read);
    read.length = 0;
    do {
        char out[ROOM];
        memset(out, '#', sizeof out);
        read.outcome = rdlpp_read(handle, out, room, read.name, ROOM, read.word, ROOM);
        check(read.outcome.length <= room && out[read.outcome.length] == '#', "nothing is written after the bytes");
        memcpy(read.out + read.length, out, read.outcome.length);
        read.length += read.outcome.length;
    } while (read.outcome.status == RDLPP_MORE);
    return read;
}

static void reads_in_pieces(void)
{
    size_t room;
    for (room = 1; room < 40; room += 1) {
        rdlpp_handle handle = RDLPP_CLOSED_HANDLE;
        struct read read;
        check(open_text(&handle, "`define A(x) <x>\n`A(long body)`include \"i\"\n`W\n", "W").status == RDLPP_WHOLE, "it opens");
        read = read_all(&handle, room);
        check(read.outcome.status == RDLPP_WHOLE, "the output is whole");
        check(read.length == 17 && memcmp(read.out, "\n<long body>q\n\n8\n", 17) == 0, "the output in pieces");
        read = read_all(&handle, room);
        check(read.outcome.status == RDLPP_WHOLE && read.length == 0, "the end is told again");
        rdlpp_close(&handle);
    }
}

static void tells_a_fault(void)
{
    rdlpp_handle handle = RDLPP_CLOSED_HANDLE;
    struct read read;
    check(open_text(&handle, "a\n`line 10 \"v.rdl\" 0\n`Unknown", "W").status == RDLPP_WHOLE, "it opens");
    read = read_all(&handle, 2);
    check(read.outcome.status == RDLPP_STOPPED && read.outcome.number == 7 && read.outcome.line == 10, "the fault");
    check(read.length == 3 && memcmp(read.out, "a\n\n", 3) == 0, "the output before it");
    check(read.outcome.name_length == 5 && memcmp(read.name, "v.rdl#", 6) == 0, "its shown name");
    check(read.outcome.word_length == 7 && memcmp(read.word, "Unknown#", 8) == 0, "its word");
    read = read_all(&handle, 2);
    check(read.outcome.status == RDLPP_STOPPED && read.outcome.number == 7 && read.length == 0, "it is told again");
    rdlpp_close(&handle);
}

static void refuses_to_open(void)
{
    rdlpp_handle handle = RDLPP_CLOSED_HANDLE;
    rdlpp_request request = rdlpp_standard_request();
    rdlpp_outcome outcome;
    struct read read;
    const rdlpp_text texts[] = {{"n", 1, "a", 1}};
    char none[1] = {'#'};
    check(open_text(&handle, "a", "1x").number == 15, "a refused definition");
    check(read_all(&handle, 4).outcome.status == RDLPP_CLOSED, "the handle is closed then");
    check(open_text(&handle, "a", "\xff").status == RDLPP_BAD_TEXT, "a name that isn't UTF-8");
    request.texts = texts;
    request.texts_length = 1;
    request.path = "n";
    request.path_length = 1;
    request.limits.depth = 0;
    outcome = rdlpp_open(&request, none, 0, none, 0, &handle);
    check(outcome.status == RDLPP_BAD_LIMIT && outcome.number == 1, "a limit out of its range");
    request.limits.depth = 1;
    request.path = "o";
    outcome = rdlpp_open(&request, none, 0, none, 0, &handle);
    check(outcome.status == RDLPP_WHOLE, "a main text that isn't there is told by the first read");
    read = read_all(&handle, 4);
    check(read.outcome.status == RDLPP_STOPPED && read.outcome.number == 28 && read.length == 0, "no main text");
    rdlpp_close(&handle);
}

static void closes(void)
{
    rdlpp_handle handle = RDLPP_CLOSED_HANDLE;
    char none[1] = {'#'};
    rdlpp_close(&handle);
    check(rdlpp_read(&handle, none, 1, none, 0, none, 0).status == RDLPP_CLOSED, "a handle that was never opened");
    check(open_text(&handle, "abc", "W").status == RDLPP_WHOLE, "it opens");
    check(rdlpp_read(&handle, none, 0, none, 0, none, 0).status == RDLPP_MORE, "a buffer of length 0 is full");
    check(rdlpp_read(&handle, none, 1, none, 0, none, 0).status == RDLPP_MORE && none[0] == 'a', "the first byte");
    check(open_text(&handle, "xyz", "W").status == RDLPP_WHOLE, "it opens again");
    check(rdlpp_read(&handle, none, 1, none, 0, none, 0).status == RDLPP_MORE && none[0] == 'x', "another first byte");
    rdlpp_close(&handle);
    rdlpp_close(&handle);
    check(rdlpp_read(&handle, none, 1, none, 0, none, 0).status == RDLPP_CLOSED && none[0] == 'x', "it is closed");
}

/* How many reads a text takes, which is freed. */
static int count_all_reads(char *source)
{
    rdlpp_handle handle = RDLPP_CLOSED_HANDLE;
    rdlpp_outcome outcome;
    char out[ROOM];
    int reads = 0;
    check(open_text(&handle, source, "W").status == RDLPP_WHOLE, "it opens");
    free(source);
    do {
        outcome = rdlpp_read(&handle, out, ROOM, NULL, 0, NULL, 0);
        reads += 1;
    } while (outcome.status == RDLPP_MORE);
    check(outcome.status == RDLPP_WHOLE, "it is read whole");
    rdlpp_close(&handle);
    return reads;
}

/* So of lines that begin so and go on with 60,000 letters, between what stands before and after them. */
static int count_reads(const char *before, const char *line, const char *after)
{
    enum { TIMES = 12, LENGTH = 60000 };
    char *source = malloc(strlen(before) + TIMES * (strlen(line) + LENGTH + 1) + strlen(after) + 1);
    char *end = source + sprintf(source, "%s", before);
    int i;
    for (i = 0; i < TIMES; i += 1) {
        end += sprintf(end, "%s", line);
        memset(end, 'x', LENGTH);
        end += LENGTH;
        *end++ = '\n';
    }
    strcpy(end, after);
    return count_all_reads(source);
}

/* So of a macro that uses another one 40 times, in whose text stands a call with 60,000 brackets. Each text begins so. */
static int count_call_reads(const char *begin)
{
    enum { TIMES = 40, LENGTH = 60000 };
    char *source = malloc(2 * LENGTH);
    char *end = source + sprintf(source, "`define NONE(x)\n`define CALL %s`NONE(", begin);
    int i;
    memset(end, '[', LENGTH / 2);
    memset(end + LENGTH / 2, ']', LENGTH / 2);
    end += LENGTH;
    end += sprintf(end, ")\n`define CALLS ");
    for (i = 0; i < TIMES; i += 1)
        end += sprintf(end, "`CALL");
    strcpy(end, "\n`CALLS\n");
    return count_all_reads(source);
}

/* Long lines and long calls that give next to no bytes are spread over several reads, so that none takes long. */
static void spreads_long_lines(void)
{
    check(count_reads("", "`define M ", "") > 5, "a read takes few long definitions");
    check(count_reads("`ifdef N\n", "", "`endif\n") > 2, "a read takes few long lines of skipped text");
    check(count_call_reads("") > 15, "a read takes few long calls in macro text");
    check(count_call_reads("x") > 15, "a read takes few long calls in macro text after bytes");
}

int main(void)
{
    reads_in_pieces();
    tells_a_fault();
    refuses_to_open();
    closes();
    spreads_long_lines();
    return failures == 0 ? EXIT_SUCCESS : EXIT_FAILURE;
}
