/* Handles that are opened again: each output is as by a new handle, whatever was read by it before, and however that ended. */
#include "checking.h"
#include "rdlpp.h"

#include <stdio.h>
#include <stdlib.h>
#include <string.h>

#define ROOM 4096

/* What is told of a path that is asked for: nothing, or by one of these calls. */
enum gives { NOTHING, TEXT, TEXT_ONCE, TEXT_FAILED };

/* What is asked for and how it is read: a main text `m`, and a source `i`, which are asked for where something is told of them. */
struct run {
    const char *shows;
    const char *text;
    const char *included;
    const char *definition;
    enum gives gives;
    size_t room;      /* of each read's buffer */
    int reads;        /* how many at most; fewer than 0: to the end */
    bool asks;
    bool pieces;
    bool origins;
    size_t depth;     /* 0: the standard one */
    uint64_t output_bytes;
};

static const struct run runs[] = {
    {"a whole text", "`define M(x) <x>\n`M(a)`include \"i\"\n`W\n", "q", "W", NOTHING, 64, -1, false, false, false, 0, 30},
    {"no read", "`define M a\n`M", "", "W", NOTHING, 64, 0, false, false, false, 0, 30},
    {"between two reads", "`define M abcdefgh\n`ifdef M\n`M`M", "", "W", NOTHING, 3, 2, false, false, false, 0, 30},
    {"between two pieces", "`define M(x) a\\\nx\\\nc\n`M(b)\n`M(`M(c))\n", "", "W", NOTHING, 64, 3, false, true, true, 0, 60},
    {"in a call", "`define M(x) x\n\n`M(a", "", "W", NOTHING, 64, -1, false, false, false, 0, 30},
    {"in an actual in a call", "`define M(x) x\n`define N(x) `M(x)\n`N(a `N(b `Q))", "", "W", NOTHING, 64, -1, false, false, false, 0, 30},
    {"a macro in itself", "`define M `N\n`define N `M\na `M", "", "W", NOTHING, 64, -1, false, false, false, 0, 30},
    {"in a source", "`define M\n`include \"i\"\n", "\n\n`line 7 \"own.rdl\" 0\n`Q", "W", NOTHING, 64, -1, false, false, false, 0, 30},
    {"in skipped text", "`define N\n`ifndef N\n`define M\n`else\n`ifdef X\nb", "", "W", NOTHING, 64, -1, false, false, false, 0, 30},
    {"output that is too long", "`define M abcdef\n`M`M`M`M`M`M", "", "W", NOTHING, 64, -1, false, false, false, 0, 30},
    {"a source that is asked for", "a`include \"i\"\n", "", "W", NOTHING, 64, -1, true, false, false, 0, 30},
    {"sources that are given", "a`include \"i\"\nb`include \"i\"\n", "i", "W", TEXT, 64, -1, true, false, false, 0, 30},
    {"sources that are given once", "a`include \"i\"\nb`include \"i\"\n", "`define M 1\n", "W", TEXT_ONCE, 64, -1, true, false, false, 0, 30},
    {"other sources that are given once", "c`include \"i\"\n`M", "other", "W", TEXT_ONCE, 64, -1, true, false, false, 0, 30},
    {"one that is given once and is read", "a`include \"i\"\n", "long text", "W", TEXT_ONCE, 4, 4, true, false, false, 0, 30},
    {"a device that fails", "`define M\na`include \"i\"\n", NULL, "W", TEXT_FAILED, 64, -1, true, false, false, 0, 30},
    {"a main text that can't be opened", NULL, NULL, "W", TEXT_FAILED, 64, -1, true, false, false, 0, 30},
    {"a refused definition", "a", "", "1x", NOTHING, 64, -1, false, false, false, 0, 30},
    {"a name that isn't UTF-8", "a", "", "\xff", NOTHING, 64, -1, false, false, false, 0, 30},
    {"a macro of the run before", "`ifdef M\nM\n`else\nnone\n`endif\n`M", "", "V", NOTHING, 64, -1, false, false, false, 0, 30},
    {"a definition of the run before", "a\n`W", "", "V", NOTHING, 64, -1, false, false, false, 0, 30},
    {"a branch of the run before", "b\n`else\n", "", "W", NOTHING, 64, -1, false, false, false, 0, 30},
    {"an end of the run before", "b\n`endif\n", "", "W", NOTHING, 64, -1, false, false, false, 0, 30},
    {"its own name and line", "c\n`Q", "", "W", NOTHING, 64, -1, false, true, true, 0, 30},
    {"an open conditional of its own", "`ifdef W\nc\n", "", "W", NOTHING, 5, -1, false, false, false, 0, 30},
    {"less depth", "`define M `N\n`define N a\n`M", "", "W", NOTHING, 64, -1, false, false, false, 1, 30},
    {"more depth", "`define M `N\n`define N a\n`M", "", "W", NOTHING, 64, -1, false, false, false, 300, 30},
    {"a depth that is out of its range", "a", "", "W", NOTHING, 64, -1, false, false, false, 1025, 30},
    {"a shorter output", "abcdefgh\n`W", "", "W", NOTHING, 64, -1, false, false, false, 0, 8},
    {"a longer output", "abcdefghijklmnopqrstuvwxyz0123456789\n`W", "", "W", NOTHING, 64, -1, false, false, false, 0, UINT64_MAX},
};

#define RUNS (sizeof runs / sizeof runs[0])

/* All that the calls of a run told. */
struct told {
    char text[ROOM * 4];
    size_t length;
};

static void tell(struct told *told, const void *bytes, size_t length)
{
    if (length > sizeof told->text - told->length) {
        fprintf(stderr, "reopens.c: a run tells too much\n");
        exit(EXIT_FAILURE);
    }
    memcpy(told->text + told->length, bytes, length);
    told->length += length;
}

static void tell_outcome(struct told *told, const rdlpp_outcome *outcome)
{
    char text[200];
    const int length = sprintf(text, "%u %u %llu %llu %lu %lu\n", (unsigned)outcome->status, (unsigned)outcome->number,
        (unsigned long long)outcome->line, (unsigned long long)outcome->length, (unsigned long)outcome->name_length,
        (unsigned long)outcome->word_length);
    tell(told, text, (size_t)length);
}

/* A call that opens a handle. */
typedef rdlpp_outcome opens(const rdlpp_request *, char *, size_t, char *, size_t, rdlpp_handle *);

static rdlpp_outcome open_by(opens *by, const struct run *run, struct told *told, rdlpp_handle *handle)
{
    rdlpp_request request = rdlpp_standard_request();
    rdlpp_text texts[2] = {{"m", 1, NULL, 0}, {"i", 1, NULL, 0}};
    const rdlpp_definition definition = {run->definition, strlen(run->definition), "8", 1};
    char name[64], word[64];
    rdlpp_outcome outcome;
    memset(name, '#', sizeof name);
    memset(word, '#', sizeof word);
    if (!run->asks) {
        texts[0].text = run->text;
        texts[0].text_length = strlen(run->text);
        texts[1].text = run->included;
        texts[1].text_length = strlen(run->included);
        request.texts = texts;
        request.texts_length = 2;
    }
    request.asks = run->asks;
    request.pieces = run->pieces;
    request.origins = run->origins;
    request.definitions = &definition;
    request.definitions_length = 1;
    request.path = "m";
    request.path_length = 1;
    request.limits.output_bytes = run->output_bytes;
    if (run->depth != 0) {
        request.limits.depth = run->depth;
    }
    outcome = by(&request, name, sizeof name, word, sizeof word, handle);
    tell_outcome(told, &outcome);
    tell(told, name, sizeof name);
    tell(told, word, sizeof word);
    return outcome;
}

/* Tells what is known of a path that is asked for; answers whether something is. */
static int give(const struct run *run, struct told *told, rdlpp_handle *handle, const char *path, size_t length)
{
    const char *text = path[0] == 'm' ? run->text : run->included;
    uint32_t status;
    if (run->gives == NOTHING && path[0] != 'm') {
        return 0;
    }
    if (text == NULL) {
        status = rdlpp_give_failed(handle, path, length);
    } else if (run->gives == TEXT_ONCE) {
        status = rdlpp_give_once(handle, path, length, text, strlen(text));
    } else {
        status = rdlpp_give(handle, path, length, text, strlen(text));
    }
    tell(told, &status, sizeof status);
    return 1;
}

/* What one read told, with the place and the notes after it. */
static rdlpp_outcome read_some(const struct run *run, struct told *told, rdlpp_handle *handle, char *name, size_t name_room)
{
    char out[64], word[64], text[256];
    rdlpp_outcome outcome, place;
    size_t notes;
    memset(out, '#', sizeof out);
    memset(name, '#', name_room);
    memset(word, '#', sizeof word);
    outcome = rdlpp_read(handle, out, run->room, name, name_room, word, sizeof word);
    tell_outcome(told, &outcome);
    tell(told, out, sizeof out);
    tell(told, name, name_room);
    tell(told, word, sizeof word);
    memset(text, '#', sizeof text);
    place = rdlpp_position(handle, text, sizeof text);
    tell_outcome(told, &place);
    tell(told, text, 16);
    memset(text, '#', sizeof text);
    notes = rdlpp_notes(handle, text, sizeof text);
    tell(told, &notes, sizeof notes);
    tell(told, text, sizeof text);
    return outcome;
}

/* Opens a handle by a call, reads what the run reads, and tells all that came of it. */
static void carry_out(opens *by, const struct run *run, struct told *told, rdlpp_handle *handle)
{
    char name[64], text[256];
    rdlpp_outcome outcome;
    size_t length;
    int reads = 0;
    told->length = 0;
    outcome = open_by(by, run, told, handle);
    check((outcome.status == RDLPP_WHOLE) == handle->is_open, "a handle is open where it was opened");
    while (reads != run->reads) {
        outcome = read_some(run, told, handle, name, sizeof name);
        reads += 1;
        if (outcome.status == RDLPP_WANTED && !give(run, told, handle, name, outcome.name_length)) {
            break;
        }
        if (outcome.status != RDLPP_MORE && outcome.status != RDLPP_WANTED) {
            break;
        }
    }
    memset(text, '#', sizeof text);
    length = rdlpp_definitions(handle, text, sizeof text);
    tell(told, &length, sizeof length);
    tell(told, text, sizeof text);
}

/* What each run tells by a handle of its own. */
static struct told alone[RUNS];

static void expect(const struct run *before, const struct run *run, const struct told *told)
{
    const struct told *wanted = &alone[run - runs];
    if (told->length != wanted->length || memcmp(told->text, wanted->text, told->length) != 0) {
        fprintf(stderr, "reopens.c: %s: not as alone after %s\n", run->shows, before->shows);
        failures += 1;
    }
}

/* Each run after each other one, and after itself. */
static void follows_each_run(void)
{
    static struct told told;
    size_t first, second;
    for (first = 0; first < RUNS; first += 1) {
        rdlpp_handle handle = RDLPP_CLOSED_HANDLE;
        carry_out(rdlpp_reopen, &runs[first], &told, &handle);
        expect(&runs[first], &runs[first], &told);
        for (second = 0; second < RUNS; second += 1) {
            carry_out(rdlpp_reopen, &runs[second], &told, &handle);
            expect(&runs[first], &runs[second], &told);
            carry_out(rdlpp_reopen, &runs[first], &told, &handle);
            expect(&runs[second], &runs[first], &told);
        }
        rdlpp_close(&handle);
        check(!handle.is_open, "it is closed");
    }
}

/* The kind of the fault that ends a run after another one, and 0 where none does. */
static uint32_t fault_after(const char *before, const char *text, const char **name, uint64_t *line)
{
    static char names[64];
    const struct run first = {"", before, "", "W", NOTHING, 64, -1, false, false, false, 0, 100};
    const struct run second = {"", text, "", "V", NOTHING, 64, 0, false, false, false, 0, 100};
    static struct told told;
    rdlpp_handle handle = RDLPP_CLOSED_HANDLE;
    rdlpp_outcome outcome;
    carry_out(rdlpp_reopen, &first, &told, &handle);
    carry_out(rdlpp_reopen, &second, &told, &handle);
    outcome = read_some(&second, &told, &handle, names, sizeof names);
    rdlpp_close(&handle);
    *name = names;
    *line = outcome.line;
    return outcome.status == RDLPP_STOPPED ? outcome.number : 0;
}

/* A macro, a conditional and a line's name of the text before aren't there. */
static void sees_nothing_of_the_text_before(void)
{
    const char *name;
    uint64_t line;
    check(fault_after("`define M 1\n", "`M", &name, &line) == RDLPP_FAULT_UNDEFINED_MACRO, "a macro");
    check(fault_after("a", "`W", &name, &line) == RDLPP_FAULT_UNDEFINED_MACRO, "a definition");
    check(fault_after("`ifdef X\n", "`ifdef X\n", &name, &line) == RDLPP_FAULT_CONDITIONAL_NOT_CLOSED && line == 1, "a conditional");
    check(fault_after("`ifdef X\n", "a\n", &name, &line) == 0, "skipped text");
    check(fault_after("`line 9 \"v.rdl\" 0\n", "\n`Q", &name, &line) == RDLPP_FAULT_UNDEFINED_MACRO && line == 2, "a line");
    check(memcmp(name, "m#", 2) == 0, "a name");
}

/* A line map begins at the first line, wherever the one before ended. */
static void maps_anew(void)
{
    static const struct run run = {"", "a\n`define M 1\nb\nc\n", "", "W", NOTHING, 64, 0, false, false, false, 0, 100};
    static const char wanted[] = "1\t1\t1\tm\n";
    static struct told told;
    rdlpp_handle handle = RDLPP_CLOSED_HANDLE;
    char out[64], map[2 * RDLPP_MAP_ROOM], name[64], word[64];
    size_t room, turn;
    for (room = 1; room < 8; room += 1) {
        rdlpp_mapped mapped;
        carry_out(rdlpp_reopen, &run, &told, &handle);
        rdlpp_read_mapped(&handle, out, room, map, sizeof map, name, sizeof name, word, sizeof word);
        carry_out(rdlpp_reopen, &run, &told, &handle);
        for (turn = 0; turn < 2; turn += 1) {
            mapped = rdlpp_read_mapped(&handle, out, sizeof out, map, sizeof map, name, sizeof name, word, sizeof word);
            check(mapped.outcome.status == RDLPP_WHOLE, "a mapped read is whole");
            check(mapped.outcome.length == (turn == 0 ? 7 : 0), "its output");
            check(mapped.map_length == (turn == 0 ? strlen(wanted) : 0) && memcmp(map, wanted, mapped.map_length) == 0, "its map");
        }
    }
    rdlpp_close(&handle);
}

int main(void)
{
    size_t at;
    for (at = 0; at < RUNS; at += 1) {
        rdlpp_handle handle = RDLPP_CLOSED_HANDLE;
        carry_out(rdlpp_open, &runs[at], &alone[at], &handle);
        rdlpp_close(&handle);
    }
    follows_each_run();
    sees_nothing_of_the_text_before();
    maps_anew();
    return failures == 0 ? EXIT_SUCCESS : EXIT_FAILURE;
}
