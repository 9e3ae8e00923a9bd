/* Calls of the library from C: every status, texts that are longer than their buffers, empty lists. */
#include "checking.h"
#include "rdlpp.h"

#include <stdio.h>
#include <stdlib.h>
#include <string.h>

#define ROOM 64

/* What a call told. Each buffer has marks where nothing was written. */
struct told {
    rdlpp_outcome outcome;
    char out[ROOM];
    char name[ROOM];
    char word[ROOM];
};

/* What a call asks for, but for its source `m`: it has an include folder with one source, and one definition. */
struct asked {
    rdlpp_limits limits;
    bool origins;
    const char *path;
    const char *name;
    size_t room;
};

static struct asked standard(void)
{
    struct asked asked = {{0, 0, 0, 0, 0, 0, 0, 0, 0}, false, "m", "W", ROOM};
    asked.limits = rdlpp_standard_limits();
    return asked;
}

static struct told call(const struct asked *asked, const char *source)
{
    const rdlpp_text texts[] = {
        {"m", 1, source, strlen(source)},
        {"inc/i", 5, "q", 1},
        {"m", 1, "never", 5},
    };
    const rdlpp_folder folders[] = {{"inc", 3}};
    const rdlpp_definition definitions[] = {{asked->name, strlen(asked->name), "8", 1}};
    rdlpp_request request = rdlpp_standard_request();
    struct told told;
    memset(&told, '#', sizeof told);
    request.limits = asked->limits;
    request.origins = asked->origins;
    request.texts = texts;
    request.texts_length = 3;
    request.folders = folders;
    request.folders_length = 1;
    request.definitions = definitions;
    request.definitions_length = 1;
    request.path = asked->path;
    request.path_length = strlen(asked->path);
    told.outcome = rdlpp_preprocess(&request, told.out, asked->room, told.name, asked->room, told.word, asked->room);
    return told;
}

/* Whether a buffer begins with a text and has marks from there on. */
static int holds(const char *buffer, const char *text)
{
    size_t at = strlen(text);
    if (memcmp(buffer, text, at) != 0) {
        return 0;
    }
    while (at < ROOM && buffer[at] == '#') {
        at += 1;
    }
    return at == ROOM;
}

/* Whether a call ended with a status and a number, and wrote nothing. */
static int is_refused(const struct told *told, uint32_t status, uint32_t number)
{
    const rdlpp_outcome *outcome = &told->outcome;
    return outcome->status == status && outcome->number == number && outcome->line == 0
        && outcome->length == 0 && outcome->name_length == 0 && outcome->word_length == 0
        && holds(told->out, "") && holds(told->name, "") && holds(told->word, "");
}

static void gives_the_output(void)
{
    struct asked asked = standard();
    struct told told = call(&asked, "reg[`W];\n");
    check(told.outcome.status == RDLPP_WHOLE && told.outcome.number == 0, "the output is whole");
    check(told.outcome.length == 8 && holds(told.out, "reg[8];\n"), "the output");
    check(told.outcome.name_length == 0 && holds(told.name, ""), "no name");
    check(told.outcome.word_length == 0 && holds(told.word, ""), "no word");

    asked.origins = true;
    told = call(&asked, "a\n");
    check(holds(told.out, "// origin: m:1\na\n"), "the origin comment");
}

static void tells_a_whole_length(void)
{
    struct asked asked = standard();
    struct told told;
    asked.room = 3;
    told = call(&asked, "reg[`W];\n");
    check(told.outcome.status == RDLPP_WHOLE, "the output is whole in a short buffer");
    check(told.outcome.length == 8 && holds(told.out, "reg"), "the front of the output");

    asked.room = 0;
    told = call(&asked, "reg[`W];\n");
    check(told.outcome.length == 8 && holds(told.out, ""), "a buffer of length 0");
}

static void tells_a_fault(void)
{
    struct asked asked = standard();
    struct told told = call(&asked, "`line 10 \"v.rdl\" 0\n`Unknown");
    check(told.outcome.status == RDLPP_STOPPED && told.outcome.number == 7, "an undefined macro");
    check(told.outcome.line == 10 && told.outcome.length == 1 && holds(told.out, "\n"), "its line");
    check(told.outcome.name_length == 5 && holds(told.name, "v.rdl"), "its shown name");
    check(told.outcome.word_length == 7 && holds(told.word, "Unknown"), "its word");

    asked.room = 2;
    told = call(&asked, "`line 10 \"v.rdl\" 0\n`Unknown");
    check(told.outcome.name_length == 5 && holds(told.name, "v."), "the front of the name");
    check(told.outcome.word_length == 7 && holds(told.word, "Un"), "the front of the word");

    asked = standard();
    asked.name = "1x";
    told = call(&asked, "a");
    check(told.outcome.status == RDLPP_STOPPED && told.outcome.number == 15, "a refused definition");
    check(told.outcome.line == 1 && told.outcome.length == 0 && holds(told.name, "-D"), "its place");

    asked = standard();
    asked.path = "n";
    told = call(&asked, "a");
    check(told.outcome.status == RDLPP_STOPPED && told.outcome.number == 28, "no main text");
    check(told.outcome.line == 0 && holds(told.name, "n"), "its path");
}

static void refuses_what_is_asked(void)
{
    struct asked asked = standard();
    struct told told;
    asked.limits.definitions = 0;
    told = call(&asked, "a");
    check(is_refused(&told, RDLPP_BAD_LIMIT, 7), "a limit out of its range");

    asked.limits.depth = 1025;
    asked.name = "\xff";
    told = call(&asked, "a");
    check(is_refused(&told, RDLPP_BAD_LIMIT, 1), "the first limit out of its range");

    asked.limits = rdlpp_standard_limits();
    told = call(&asked, "a");
    check(is_refused(&told, RDLPP_BAD_TEXT, 0), "a name that isn't UTF-8");

    asked = standard();
    asked.path = "\xc3";
    told = call(&asked, "a");
    check(is_refused(&told, RDLPP_BAD_TEXT, 0), "a path that isn't UTF-8");

    asked = standard();
    told = call(&asked, "\xff\n");
    check(told.outcome.status == RDLPP_WHOLE && holds(told.out, "\xff\n"), "a source that isn't UTF-8");
}

static void takes_empty_lists(void)
{
    const rdlpp_text texts[] = {{"", 0, "", 0}};
    const rdlpp_folder folders[] = {{"", 0}};
    rdlpp_request request = rdlpp_standard_request();
    char none[1] = {'#'};
    rdlpp_outcome outcome = rdlpp_preprocess(&request, none, 0, none, 0, none, 0);
    check(outcome.status == RDLPP_STOPPED && outcome.number == RDLPP_FAULT_SOURCE_NOT_FOUND, "no sources at all");
    request.asks = true;
    outcome = rdlpp_preprocess(&request, none, 0, none, 0, none, 0);
    check(outcome.status == RDLPP_STOPPED && outcome.number == RDLPP_FAULT_SOURCE_NOT_FOUND, "one call doesn't ask");
    request.texts = texts;
    request.texts_length = 1;
    request.folders = folders;
    request.folders_length = 1;
    outcome = rdlpp_preprocess(&request, none, 0, none, 0, none, 0);
    check(outcome.status == RDLPP_WHOLE && outcome.length == 0, "an empty source under an empty path");
    check(none[0] == '#', "nothing is written to a buffer of length 0");
}

/* Text that gives nothing for many steps, and then something: the buffer has it. */
static void waits_for_output(void)
{
    char source[2000] = "`define A0\n";
    struct asked asked = standard();
    struct told told;
    int at;
    for (at = 1; at <= 18; at += 1) {
        sprintf(source + strlen(source), "`define A%d `A%d`A%d\n", at, at - 1, at - 1);
    }
    strcat(source, "a`A18 b\n");
    told = call(&asked, source);
    check(told.outcome.status == RDLPP_WHOLE && told.outcome.length == 23, "the output after many steps without any");
    check(memcmp(told.out + 19, "a b\n#", 5) == 0, "what is after them");
}

static void tells_texts(void)
{
    char text[ROOM];
    memset(text, '#', sizeof text);
    check(rdlpp_fault_text(RDLPP_FAULT_UNDEFINED_MACRO, text, ROOM) == 15 && holds(text, "undefined macro"), "the text of a fault");
    memset(text, '#', sizeof text);
    check(rdlpp_fault_text(7, text, 4) == 15 && holds(text, "unde"), "the front of the text");
    memset(text, '#', sizeof text);
    check(rdlpp_fault_text(0, text, ROOM) == 0 && holds(text, ""), "no fault has the number 0");
    check(rdlpp_fault_text(36, text, ROOM) == 0 && holds(text, ""), "nor 36");
    check(rdlpp_fault_text(UINT32_MAX, text, ROOM) == 0 && holds(text, ""), "nor the largest number");
    check(rdlpp_version(text, ROOM) == strlen(VERSION) && holds(text, VERSION), "the version");
}

int main(void)
{
    gives_the_output();
    tells_a_whole_length();
    tells_a_fault();
    refuses_what_is_asked();
    takes_empty_lists();
    waits_for_output();
    tells_texts();
    return failures == 0 ? EXIT_SUCCESS : EXIT_FAILURE;
}
