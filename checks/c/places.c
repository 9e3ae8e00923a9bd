/* Places of pieces, and line maps: those of a text that has macros, includes and numbers of its own; and over all rows, that each line of
   a map has the place of the piece that its first byte is of. */
#include "checking.h"
#include "row.h"

#include <stdio.h>
#include <stdlib.h>
#include <string.h>

#define NAME_ROOM 1024
#define MOST_LINES 200000

/* The place of a line. */
struct line {
    char *name;
    size_t name_length;
    unsigned long long line;
};

/* The lines of an output, in order. */
struct lines {
    struct line *at;
    size_t count;
};

static void add_line(struct lines *lines, const char *name, size_t length, unsigned long long number)
{
    struct line *line = &lines->at[lines->count];
    if (lines->count == MOST_LINES) {
        check_of(0, "add_line", "there is room for a line");
        return;
    }
    line->name = malloc(length + 1);
    memcpy(line->name, name, length);
    line->name_length = length;
    line->line = number;
    lines->count += 1;
}

static void start_lines(struct lines *lines)
{
    lines->at = malloc(MOST_LINES * sizeof *lines->at);
    lines->count = 0;
}

static void drop_lines(struct lines *lines)
{
    size_t at;
    for (at = 0; at < lines->count; at += 1) {
        free(lines->at[at].name);
    }
    free(lines->at);
}

/* Adds the lines whose first bytes are in a part of a piece with a place. `begins` tells whether the part begins a line, and then
   whether the next one does. */
static void add_part(struct lines *lines, int *begins, const char *part, size_t length, const rdlpp_outcome *place, const char *name)
{
    unsigned long long number = place->line;
    size_t at;
    for (at = 0; at < length; at += 1) {
        if (*begins) {
            add_line(lines, name, place->name_length, number);
        }
        *begins = part[at] == '\n';
        number += *begins && place->number == 1;
    }
}

/* Reads the output of a request piece by piece, with so many bytes at most, and gathers the places of its lines. */
static rdlpp_outcome read_pieces(const rdlpp_request *asked, size_t room, const char *shows, struct lines *lines)
{
    char name[NAME_ROOM], word[128];
    char *out = malloc(room);
    rdlpp_request request = *asked;
    rdlpp_handle handle = RDLPP_CLOSED_HANDLE;
    rdlpp_outcome outcome, place;
    int begins = 1;
    request.pieces = true;
    outcome = rdlpp_open(&request, name, sizeof name, word, sizeof word, &handle);
    while (outcome.status == RDLPP_WHOLE || outcome.status == RDLPP_MORE) {
        outcome = rdlpp_read(&handle, out, room, name, sizeof name, word, sizeof word);
        place = rdlpp_position(&handle, name, sizeof name);
        if (outcome.length == 0) {
            check_of(place.status == RDLPP_MORE && place.name_length == 0, shows, "no bytes have no place");
        } else {
            check_of(place.status == RDLPP_WHOLE && place.number <= 1, shows, "bytes have a place");
            add_part(lines, &begins, out, outcome.length, &place, name);
        }
        if (outcome.status != RDLPP_MORE) {
            break;
        }
    }
    rdlpp_close(&handle);
    free(out);
    return outcome;
}

/* The number at a place, after which a tab stands; the place goes after that. */
static unsigned long long number_at(const char **at)
{
    char *end;
    const unsigned long long number = strtoull(*at, &end, 10);
    check_of(end != *at && *end == '\t', *at, "a number of a map");
    *at = end + 1;
    return number;
}

/* Adds the lines of a run of a map, up to an output's line. */
static void add_run(struct lines *lines, const char *run, unsigned long long stop)
{
    const char *at = run;
    unsigned long long out = number_at(&at), number = number_at(&at);
    const unsigned long long step = number_at(&at);
    const size_t length = (size_t)(strchr(at, '\n') - at);
    check_of(out == lines->count + 1 && step <= 1, run, "a run begins where the one before it ends");
    while (out < stop && lines->count < MOST_LINES) {
        add_line(lines, at, length, number);
        number += step;
        out += 1;
    }
}

/* Reads the output of a request by mapped reads, and gathers the places of its lines. */
static rdlpp_outcome read_mapped(const rdlpp_request *request, size_t room, size_t most, const char *shows, struct lines *lines)
{
    char name[NAME_ROOM], word[128], map[RDLPP_MAP_ROOM];
    char *out = malloc(room), *all = malloc(most);
    rdlpp_handle handle = RDLPP_CLOSED_HANDLE;
    rdlpp_mapped mapped = {{0, 0, 0, 0, 0, 0}, 0};
    unsigned long long output_lines = 0;
    size_t length = 0, at;
    int begins = 1;
    char *run, *next;
    mapped.outcome = rdlpp_open(request, name, sizeof name, word, sizeof word, &handle);
    while (mapped.outcome.status == RDLPP_WHOLE || mapped.outcome.status == RDLPP_MORE) {
        mapped = rdlpp_read_mapped(&handle, out, room, map, sizeof map, name, sizeof name, word, sizeof word);
        for (at = 0; at < mapped.outcome.length; at += 1) {
            output_lines += begins != 0;
            begins = out[at] == '\n';
        }
        check_of(length + mapped.map_length < most, shows, "there is room for the map");
        memcpy(all + length, map, mapped.map_length);
        length += mapped.map_length;
        if (mapped.outcome.status != RDLPP_MORE) {
            break;
        }
    }
    all[length] = '\0';
    for (run = all; *run != '\0'; run = next) {
        next = strchr(run, '\n') + 1;
        add_run(lines, run, *next == '\0' ? output_lines + 1 : strtoull(next, NULL, 10));
    }
    rdlpp_close(&handle);
    free(out);
    free(all);
    return mapped.outcome;
}

/* Whether two lists of lines are the same. */
static int are_same(const struct lines *one, const struct lines *other)
{
    size_t at;
    for (at = 0; at < one->count && at < other->count; at += 1) {
        const struct line *a = &one->at[at], *b = &other->at[at];
        if (a->line != b->line || a->name_length != b->name_length || memcmp(a->name, b->name, a->name_length) != 0) {
            fprintf(stderr, "places.c: line %zu: %.*s:%llu and %.*s:%llu\n", at + 1, (int)a->name_length, a->name, a->line,
                    (int)b->name_length, b->name, b->line);
            return 0;
        }
    }
    return one->count == other->count;
}

/* The places are the same by pieces, whole and cut, and by maps. */
static void compare_ways(const rdlpp_request *request, size_t most, const char *shows)
{
    struct lines whole, cut, mapped;
    rdlpp_outcome outcome, other;
    start_lines(&whole);
    start_lines(&cut);
    start_lines(&mapped);
    outcome = read_pieces(request, 65536, shows, &whole);
    other = read_pieces(request, 3, shows, &cut);
    check_of(outcome.status == other.status && outcome.number == other.number, shows, "how the output ends in short parts");
    check_of(are_same(&whole, &cut), shows, "the places of short parts");
    other = read_mapped(request, 1000, most, shows, &mapped);
    check_of(outcome.status == other.status && outcome.number == other.number, shows, "how the output ends with a map");
    check_of(are_same(&whole, &mapped), shows, "the places of a map");
    drop_lines(&whole);
    drop_lines(&cut);
    drop_lines(&mapped);
}

static const rdlpp_text texts[] = {
    {"m", 1, "a\n`define A(x) <\\\nx>\n`A(1) b\nc\n`include \"d/i\"\n`line 70 \"n.rdl\" 0\ne\n`ifdef Q\nz\n`endif\n`A(\n2\n)\nf", 97},
    {"d/i", 3, "in\nside", 7},
};

/* The map of a text, which was made by hand. */
static void maps_a_text(void)
{
    const char wanted[] = "1\t1\t1\tm\n"       /* a, what is left of the `define` in two lines, the usage's `<` */
                          "5\t4\t1\tm\n"       /* its `1> b`, c */
                          "7\t1\t1\td/i\n"     /* the included source */
                          "9\t6\t1\tm\n"       /* what is left of the `include` and of the `line` */
                          "11\t70\t1\tn.rdl\n" /* e, what is left of the conditional, the usage's `<` */
                          "16\t74\t1\tn.rdl\n" /* its `2>` */
                          "17\t77\t1\tn.rdl\n"; /* f */
    rdlpp_request request = rdlpp_standard_request();
    rdlpp_handle handle = RDLPP_CLOSED_HANDLE;
    char out[256], map[4096], name[NAME_ROOM];
    rdlpp_mapped mapped;
    request.texts = texts;
    request.texts_length = 2;
    request.path = "m";
    request.path_length = 1;
    check_of(rdlpp_open(&request, name, sizeof name, out, 0, &handle).status == RDLPP_WHOLE, "a text", "it opens");
    mapped = rdlpp_read_mapped(&handle, out, sizeof out, map, RDLPP_MAP_ROOM - 1, name, sizeof name, out, 0);
    check_of(mapped.outcome.status == RDLPP_SHORT_MAP && mapped.map_length == 0 && mapped.outcome.length == 0, "a text", "a short map");
    mapped = rdlpp_read_mapped(&handle, out, sizeof out, map, sizeof map, name, sizeof name, out, 0);
    check_of(mapped.outcome.status == RDLPP_WHOLE, "a text", "its output is whole");
    check_of(mapped.map_length == strlen(wanted) && memcmp(map, wanted, strlen(wanted)) == 0, "a text", "its map");
    if (mapped.map_length != strlen(wanted) || memcmp(map, wanted, strlen(wanted)) != 0) {
        fprintf(stderr, "%.*s\n%.*s", (int)mapped.outcome.length, out, (int)mapped.map_length, map);
    }
    mapped = rdlpp_read_mapped(&handle, out, sizeof out, map, sizeof map, name, sizeof name, out, 0);
    check_of(mapped.outcome.status == RDLPP_WHOLE && mapped.map_length == 0, "a text", "the end is told again");
    rdlpp_close(&handle);
    mapped = rdlpp_read_mapped(&handle, out, sizeof out, map, sizeof map, name, sizeof name, out, 0);
    check_of(mapped.outcome.status == RDLPP_CLOSED && mapped.map_length == 0, "a text", "a closed handle");
    check_of(rdlpp_position(&handle, name, sizeof name).status == RDLPP_CLOSED, "a text", "a closed handle has no place");
    check_of(rdlpp_definitions(&handle, out, sizeof out) == 0, "a text", "a closed handle has no definitions");
    check_of(rdlpp_notes(&handle, out, sizeof out) == 0, "a text", "a closed handle has no notes");
}

/* Without `pieces` there is no place. */
static void has_no_place(void)
{
    rdlpp_request request = rdlpp_standard_request();
    rdlpp_handle handle = RDLPP_CLOSED_HANDLE;
    char out[256], name[NAME_ROOM];
    request.texts = texts;
    request.texts_length = 2;
    request.path = "m";
    request.path_length = 1;
    check_of(rdlpp_open(&request, name, sizeof name, out, 0, &handle).status == RDLPP_WHOLE, "no place", "it opens");
    check_of(rdlpp_position(&handle, name, sizeof name).status == RDLPP_MORE, "no place", "before the first read");
    check_of(rdlpp_read(&handle, out, 5, name, sizeof name, out, 0).status == RDLPP_MORE, "no place", "a read");
    check_of(rdlpp_position(&handle, name, sizeof name).status == RDLPP_MORE, "no place", "without pieces");
    rdlpp_close(&handle);
}

/* Definitions and notes: their whole length, and their front in a short buffer. */
static void tells_what_is_left(void)
{
    static const rdlpp_text faulty[] = {{"m", 1, "`define A(x, y = 2) <x>\n`define B b\\\nc\n`include \"no\"\n", 52}};
    const char wanted[] = "`define A(x,y=2)<x>\n`define B b\\\nc\n";
    rdlpp_request request = rdlpp_standard_request();
    rdlpp_handle handle = RDLPP_CLOSED_HANDLE;
    char out[256], name[NAME_ROOM];
    size_t length;
    request.texts = faulty;
    request.texts_length = 1;
    request.path = "m";
    request.path_length = 1;
    check_of(rdlpp_open(&request, name, sizeof name, out, 0, &handle).status == RDLPP_WHOLE, "left", "it opens");
    check_of(rdlpp_definitions(&handle, out, sizeof out) == 0, "left", "no definition at first");
    check_of(rdlpp_notes(&handle, out, sizeof out) == 0, "left", "no notes at first");
    check_of(rdlpp_read(&handle, out, sizeof out, name, sizeof name, out, 0).status == RDLPP_STOPPED, "left", "its fault");
    memset(out, '#', sizeof out);
    length = rdlpp_definitions(&handle, out, 4);
    check_of(length == strlen(wanted) && memcmp(out, "`def#", 5) == 0, "left", "the front of the definitions");
    length = rdlpp_definitions(&handle, out, sizeof out);
    check_of(length == strlen(wanted) && memcmp(out, wanted, length) == 0 && out[length] == '#', "left", "the definitions");
    memset(out, '#', sizeof out);
    length = rdlpp_notes(&handle, out, sizeof out);
    check_of(length > 1 && length < sizeof out && out[length - 1] == '\n' && out[length] == '#', "left", "the notes are lines");
    check_of(length > 2 && strncmp(out, "rdlpp: note: asked for 'no'\n", 28) == 0, "left", "the first note");
    check_of(rdlpp_notes(&handle, out, 0) == length, "left", "their length alone");
    rdlpp_close(&handle);
}

int main(void)
{
    size_t at, total = 100000;
    rdlpp_request request = rdlpp_standard_request();
    maps_a_text();
    has_no_place();
    tells_what_is_left();
    request.texts = texts;
    request.texts_length = 2;
    request.path = "m";
    request.path_length = 1;
    compare_ways(&request, total, "a text");
    request.origins = true;
    compare_ways(&request, total, "a text with origins");
    for (at = 0; at < sizeof rows / sizeof rows[0]; at += 1) {
        request = asked(&rows[at]);
        compare_ways(&request, total + rows[at].output_length * 100, rows[at].shows);
    }
    return failures == 0 ? EXIT_SUCCESS : EXIT_FAILURE;
}
