/* Counts the memory that an opening asks for: beside what is copied of the request, and the block of the handle, it has the
   bytes that the limits come to, in at most `includes + 9` blocks; reads ask for none. And that which a text asks for: a lent
   one for its path alone. */
#include "allocations.h"
#include "rdlpp.h"

#include <stdbool.h>
#include <stdio.h>
#include <stdlib.h>
#include <string.h>

/* What was asked for: blocks, and bytes. */
struct asked {
    size_t blocks;
    size_t bytes;
};

/* Definitions with lists, defaults and comments, usages, calls over lines, conditionals, skipped text, a `line`, and an
   include of a text that includes itself until none more may be open. */
static const char text[] =
    "`define W 8 // bits\n"
    "`define K(x, y=`W) <x, y> \\\n"
    " /* x */ \"x\"\n"
    "`K(`K(a,), // one\n"
    " (b, c))\n"
    "`ifdef W `W `elsif V `undef V `else `include \"no\" `endif\n"
    "`ifndef W `define V 1\n"
    "`endif\n"
    "`line 9 \"v\" 0\n"
    "`undef W\n"
    "`include \"m\"\n";

/* The limits on memory: in the order of rdlpp_limits the least number of each, the standard one and the greatest. */
enum { DEPTH, INCLUDES, LINE_BYTES, ARGUMENT_BYTES, DEFINITION_BYTES, DEFINITIONS, CONDITIONS, LIMITS };
enum { LEAST, STANDARD, GREATEST };
static const size_t numbers[LIMITS][3] = {
    {1, 256, 1024}, {0, 16, 64}, {256, 65536, 1048576}, {16, 65536, 1048576}, {1024, 1048576, 16777216}, {1, 4096, 65536},
    {1, 256, 4096}
};

/* The bytes that are kept of a definition beside its text, of an open source in memory beside its line, of an open text of a
   macro, of an actual, of an open conditional, and of an item in the index of the definitions. */
enum { DEFINITION = 80, SOURCE = 2240, TEXT = 64, ACTUAL = 16, CONDITION = 16, ITEM = 2 };
/* The most actuals of a call, and the fewest bytes of a definition's text that take two more items in the index. */
enum { ACTUALS = 255, PLACED = 4 };
/* The groups of the index, and the slack of each: so many items, and one for so many definitions. */
enum { GROUPS = 32, SLACK = 4, SLACK_FOR = 256 };

/* The bytes of all memory of an engine over texts in memory, with room for no more than these limits allow. */
static size_t room_of(const size_t limits[LIMITS])
{
    const size_t items = limits[DEFINITIONS] + GROUPS * (limits[DEFINITIONS] / SLACK_FOR + SLACK)
        + 2 * (limits[DEFINITION_BYTES] / PLACED);
    const size_t table = limits[DEFINITION_BYTES] + limits[DEFINITIONS] * DEFINITION + items * ITEM;
    const size_t sources = (limits[INCLUDES] + 1) * (limits[LINE_BYTES] + SOURCE);
    const size_t texts = limits[ARGUMENT_BYTES] + limits[DEPTH] * TEXT + (limits[DEPTH] + 1) * ACTUALS * ACTUAL;
    return table + sources + texts + limits[CONDITIONS] * CONDITION;
}

static rdlpp_limits limits_of(const size_t limits[LIMITS])
{
    rdlpp_limits made = rdlpp_standard_limits();
    made.depth = limits[DEPTH];
    made.includes = limits[INCLUDES];
    made.line_bytes = limits[LINE_BYTES];
    made.argument_bytes = limits[ARGUMENT_BYTES];
    made.definition_bytes = limits[DEFINITION_BYTES];
    made.definitions = limits[DEFINITIONS];
    made.conditions = limits[CONDITIONS];
    return made;
}

/* Reads to the end with all memory refused: whether none was asked for. */
static bool reads_without(rdlpp_handle *handle)
{
    char out[256], none[1];
    const size_t before = asked_blocks;
    rdlpp_outcome outcome;
    granted = 0;
    do {
        outcome = rdlpp_read(handle, out, sizeof out, none, 0, none, 0);
    } while (outcome.status == RDLPP_MORE);
    granted = -1;
    return asked_blocks == before && outcome.status == RDLPP_STOPPED && outcome.number != RDLPP_FAULT_NO_MEMORY_FOR_A_SOURCE;
}

/* What an opening by these limits asks for beside what a second one does, which copies the request alone; no blocks where
   one is refused, or where a read asks for some. */
static struct asked asked_by(const size_t limits[LIMITS])
{
    static const rdlpp_text texts[] = {{"m", 1, text, sizeof text - 1}};
    static const rdlpp_folder folders[] = {{"inc", 3}};
    const struct asked none = {0, 0};
    struct asked first;
    rdlpp_request request = rdlpp_standard_request();
    rdlpp_handle handle = RDLPP_CLOSED_HANDLE;
    char word[1];
    bool is_right;
    request.limits = limits_of(limits);
    request.origins = true;
    request.texts = texts;
    request.texts_length = 1;
    request.folders = folders;
    request.folders_length = 1;
    request.path = "m";
    request.path_length = 1;
    asked_blocks = asked_bytes = 0;
    is_right = rdlpp_open(&request, word, 0, word, 0, &handle).status == RDLPP_WHOLE;
    first.blocks = asked_blocks;
    first.bytes = asked_bytes;
    is_right = is_right && reads_without(&handle);
    asked_blocks = asked_bytes = 0;
    is_right = is_right && rdlpp_reopen(&request, word, 0, word, 0, &handle).status == RDLPP_WHOLE;
    first.blocks -= asked_blocks;
    first.bytes -= asked_bytes;
    is_right = is_right && reads_without(&handle);
    rdlpp_close(&handle);
    return is_right ? first : none;
}

/* Whether an opening by these limits asks for what they come to, and for the block of the handle, whose bytes are always as
   many as they were first. */
static bool has_room(const size_t limits[LIMITS])
{
    static size_t handle_bytes = 0;
    const struct asked engine = asked_by(limits);
    const size_t beside = engine.bytes - room_of(limits);
    int at;
    if (handle_bytes == 0) {
        handle_bytes = beside;
    }
    if (engine.blocks > 1 && engine.blocks <= limits[INCLUDES] + 10 && beside == handle_bytes && beside < 20000) {
        return true;
    }
    fprintf(stderr, "rooms.c: %zu blocks, %zu bytes beside the limits', which are", engine.blocks, beside);
    for (at = 0; at < LIMITS; at += 1) {
        fprintf(stderr, " %zu", limits[at]);
    }
    fprintf(stderr, "\n");
    return false;
}

/* The bytes that a call asks for by which a text is told; none where it or the reads after it fail. */
static size_t bytes_of(uint32_t (*tells)(rdlpp_handle *, const char *, size_t, const char *, size_t))
{
    static char lines[100000];
    rdlpp_request request = rdlpp_standard_request();
    rdlpp_handle handle = RDLPP_CLOSED_HANDLE;
    char out[256], word[1];
    size_t before, read = 0, bytes = 0;
    rdlpp_outcome outcome;
    memset(lines, '\n', sizeof lines);
    request.asks = true;
    request.path = "m";
    request.path_length = 1;
    if (rdlpp_open(&request, word, 0, word, 0, &handle).status != RDLPP_WHOLE) {
        return 0;
    }
    before = asked_bytes;
    if (tells(&handle, "m", 1, lines, sizeof lines) == RDLPP_WHOLE) {
        bytes = asked_bytes - before;
    }
    granted = 0;
    do {
        outcome = rdlpp_read(&handle, out, sizeof out, word, 0, word, 0);
        read += outcome.length;
    } while (outcome.status == RDLPP_MORE);
    granted = -1;
    rdlpp_close(&handle);
    return outcome.status == RDLPP_WHOLE && read == sizeof lines ? bytes : 0;
}

/* The standard limits, each limit alone at its least, doubled and at its greatest, and all of them at once. */
int main(void)
{
    size_t limits[LIMITS];
    bool is_right = true;
    int at, kind;
    for (kind = LEAST; kind <= GREATEST; kind += 1) {
        for (at = 0; at < LIMITS; at += 1) {
            limits[at] = numbers[at][kind];
        }
        is_right = has_room(limits) && is_right;
    }
    for (at = 0; at < LIMITS; at += 1) {
        limits[at] = numbers[at][STANDARD];
    }
    for (at = 0; at < LIMITS; at += 1) {
        for (kind = LEAST; kind <= GREATEST; kind += 1) {
            limits[at] = kind == STANDARD ? 2 * numbers[at][kind] : numbers[at][kind];
            is_right = has_room(limits) && is_right;
        }
        limits[at] = numbers[at][STANDARD];
    }
    if (bytes_of(rdlpp_give) < 100000 || bytes_of(rdlpp_lend) == 0 || bytes_of(rdlpp_lend) > 2000) {
        fprintf(stderr, "rooms.c: %zu bytes for a text that is given, %zu for one that is lent\n", bytes_of(rdlpp_give), bytes_of(rdlpp_lend));
        is_right = false;
    }
    return is_right ? EXIT_SUCCESS : EXIT_FAILURE;
}
