/* Outputs whose sources are asked for: what a give answers, what it changes, and how searches go on. */
#define _POSIX_C_SOURCE 199309L
#include "checking.h"
#include "rdlpp.h"

#include <stdio.h>
#include <stdlib.h>
#include <string.h>
#include <time.h>

#define ROOM 4096

static char name[1024], word[128], out[ROOM];

static rdlpp_request asking(void)
{
    static const rdlpp_folder folders[] = {{"inc", 3}, {"more", 4}};
    rdlpp_request request = rdlpp_standard_request();
    request.asks = true;
    request.folders = folders;
    request.folders_length = 2;
    request.path = "m";
    request.path_length = 1;
    return request;
}

static void open_asking(rdlpp_handle *handle)
{
    const rdlpp_request request = asking();
    check(rdlpp_open(&request, name, sizeof name, word, sizeof word, handle).status == RDLPP_WHOLE, "it opens");
}

static rdlpp_outcome read_some(rdlpp_handle *handle)
{
    memset(name, '#', sizeof name);
    return rdlpp_read(handle, out, ROOM, name, sizeof name, word, sizeof word);
}

/* Whether a read asks for a path, after so many bytes. */
static int wants(const rdlpp_outcome *outcome, const char *path, size_t length)
{
    return outcome->status == RDLPP_WANTED && outcome->number == 0 && outcome->line == 0 && outcome->word_length == 0
        && outcome->length == length && outcome->name_length == strlen(path)
        && memcmp(name, path, strlen(path)) == 0 && name[strlen(path)] == '#';
}

static int notes_are(rdlpp_handle *handle, const char *notes)
{
    const size_t length = rdlpp_notes(handle, out, sizeof out);
    return length == strlen(notes) && memcmp(out, notes, length) == 0;
}

static int gave(const rdlpp_outcome *outcome, const char *text)
{
    return outcome->length == strlen(text) && memcmp(out, text, strlen(text)) == 0;
}

static uint32_t give(rdlpp_handle *handle, const char *path, const char *text)
{
    return rdlpp_give(handle, path, strlen(path), text, strlen(text));
}

static uint32_t give_once(rdlpp_handle *handle, const char *path, const char *text)
{
    return rdlpp_give_once(handle, path, strlen(path), text, strlen(text));
}

static uint32_t lend(rdlpp_handle *handle, const char *path, const char *text)
{
    return rdlpp_lend(handle, path, strlen(path), text, strlen(text));
}

static uint32_t give_part(rdlpp_handle *handle, const char *part, size_t more)
{
    return rdlpp_give_part(handle, part, strlen(part), more);
}

static uint32_t give_absent(rdlpp_handle *handle, const char *path)
{
    return rdlpp_give_absent(handle, path, strlen(path));
}

static uint32_t give_failed(rdlpp_handle *handle, const char *path)
{
    return rdlpp_give_failed(handle, path, strlen(path));
}

static void asks_for_each_candidate(void)
{
    rdlpp_handle handle = RDLPP_CLOSED_HANDLE;
    rdlpp_outcome outcome;
    open_asking(&handle);
    outcome = read_some(&handle);
    check(wants(&outcome, "m", 0), "the main text is asked for");
    outcome = read_some(&handle);
    check(wants(&outcome, "m", 0), "and again where nothing was given");
    check(give(&handle, "m", "a\n`include \"i\"\nb\n") == RDLPP_WHOLE, "it is taken");
    outcome = read_some(&handle);
    check(wants(&outcome, "i", 2) && gave(&outcome, "a\n"), "the included source, after the output before it");
    outcome = read_some(&handle);
    check(wants(&outcome, "i", 0), "and again, with no bytes");
    check(give_absent(&handle, "i") == RDLPP_WHOLE, "it is absent");
    outcome = read_some(&handle);
    check(wants(&outcome, "inc/i", 0), "the next candidate");
    check(give_absent(&handle, "inc/i") == RDLPP_WHOLE, "it is absent too");
    outcome = read_some(&handle);
    check(wants(&outcome, "more/i", 0), "the last candidate");
    check(give(&handle, "more/i", "q`include \"j\"\n") == RDLPP_WHOLE, "it is there");
    outcome = read_some(&handle);
    check(wants(&outcome, "more/j", 1) && gave(&outcome, "q"), "a source beside the including one");
    check(give(&handle, "more/j", "") == RDLPP_WHOLE, "an empty source");
    outcome = read_some(&handle);
    check(outcome.status == RDLPP_WHOLE && gave(&outcome, "\n\nb\n"), "the rest");
    outcome = read_some(&handle);
    check(outcome.status == RDLPP_WHOLE && outcome.length == 0, "the end is told again");
    rdlpp_close(&handle);
}

static void tells_what_is_missing(void)
{
    rdlpp_handle handle = RDLPP_CLOSED_HANDLE;
    rdlpp_outcome outcome;
    open_asking(&handle);
    outcome = read_some(&handle);
    check(give_absent(&handle, "m") == RDLPP_WHOLE, "no main text");
    outcome = read_some(&handle);
    check(outcome.status == RDLPP_STOPPED && outcome.number == RDLPP_FAULT_SOURCE_NOT_FOUND && outcome.line == 0, "its fault");
    check(give(&handle, "m", "late") == RDLPP_WHOLE, "a text for an absent path");
    outcome = read_some(&handle);
    check(outcome.status == RDLPP_STOPPED && outcome.number == RDLPP_FAULT_SOURCE_NOT_FOUND, "it comes too late");
    rdlpp_close(&handle);

    open_asking(&handle);
    check(give(&handle, "m", "\n`include \"i\"\n") == RDLPP_WHOLE, "a main text before it is asked for");
    outcome = read_some(&handle);
    check(wants(&outcome, "i", 1), "it was kept for later");
    check(give_failed(&handle, "i") == RDLPP_WHOLE, "it can't be opened");
    check(give(&handle, "i", "late") == RDLPP_WHOLE, "a text for a path that failed");
    outcome = read_some(&handle);
    check(outcome.status == RDLPP_STOPPED && outcome.number == RDLPP_FAULT_READ_FAILED && outcome.line == 2, "its fault");
    check(outcome.name_length == 1 && name[0] == 'm', "at its include");
    outcome = read_some(&handle);
    check(outcome.status == RDLPP_STOPPED && outcome.number == RDLPP_FAULT_READ_FAILED && outcome.length == 0, "told again");
    rdlpp_close(&handle);

    open_asking(&handle);
    outcome = read_some(&handle);
    check(give_failed(&handle, "m") == RDLPP_WHOLE, "a main text that can't be opened");
    outcome = read_some(&handle);
    check(outcome.status == RDLPP_STOPPED && outcome.number == RDLPP_FAULT_READ_FAILED && outcome.line == 0, "its fault");
    rdlpp_close(&handle);
}

static void takes_the_first_of_a_path(void)
{
    rdlpp_handle handle = RDLPP_CLOSED_HANDLE;
    rdlpp_outcome outcome;
    open_asking(&handle);
    outcome = read_some(&handle);
    check(give(&handle, "m", "`include \"i\"\n`include \"i\"\n") == RDLPP_WHOLE, "the main text");
    check(give(&handle, "m", "other") == RDLPP_WHOLE, "the same path twice");
    check(give_absent(&handle, "m") == RDLPP_WHOLE, "and once more");
    check(give(&handle, "never", "x") == RDLPP_WHOLE, "a path that isn't asked for");
    outcome = read_some(&handle);
    check(wants(&outcome, "i", 0), "the first text counts");
    check(give(&handle, "i", "one") == RDLPP_WHOLE, "the included source");
    outcome = read_some(&handle);
    check(outcome.status == RDLPP_WHOLE && gave(&outcome, "one\n\none\n\n"), "it is asked for once");
    rdlpp_close(&handle);
}

static void refuses_what_is_given(void)
{
    rdlpp_handle handle = RDLPP_CLOSED_HANDLE;
    rdlpp_outcome outcome;
    open_asking(&handle);
    check(give(&handle, "\xff", "x") == RDLPP_BAD_TEXT, "a path that isn't UTF-8");
    check(give_absent(&handle, "\xc3") == RDLPP_BAD_TEXT && give_failed(&handle, "\xc3") == RDLPP_BAD_TEXT, "nor here");
    check(give(&handle, "m", "\xff") == RDLPP_WHOLE, "a text that isn't UTF-8");
    outcome = read_some(&handle);
    check(outcome.status == RDLPP_WHOLE && gave(&outcome, "\xff"), "is the output");
    rdlpp_close(&handle);
    check(give(&handle, "m", "x") == RDLPP_CLOSED, "a closed handle");
    check(give_absent(&handle, "m") == RDLPP_CLOSED && give_failed(&handle, "m") == RDLPP_CLOSED, "here too");
}

/* A handle that doesn't ask: all is told from the start. */
static void changes_nothing_that_is_told(void)
{
    static const rdlpp_text texts[] = {{"m", 1, "`include \"i\"\n", 13}};
    rdlpp_handle handle = RDLPP_CLOSED_HANDLE;
    rdlpp_request request = asking();
    rdlpp_outcome outcome;
    request.asks = false;
    request.texts = texts;
    request.texts_length = 1;
    check(rdlpp_open(&request, name, sizeof name, word, sizeof word, &handle).status == RDLPP_WHOLE, "it opens");
    check(give(&handle, "i", "x") == RDLPP_WHOLE, "a give to a handle that doesn't ask");
    outcome = read_some(&handle);
    check(outcome.status == RDLPP_STOPPED && outcome.number == RDLPP_FAULT_SOURCE_NOT_FOUND, "changes nothing");
    rdlpp_close(&handle);

    request.asks = true;
    check(rdlpp_open(&request, name, sizeof name, word, sizeof word, &handle).status == RDLPP_WHOLE, "it opens");
    check(give(&handle, "m", "other") == RDLPP_WHOLE, "a path of a text that was lent");
    outcome = read_some(&handle);
    check(wants(&outcome, "i", 0), "keeps that text");
    rdlpp_close(&handle);
}

/* A text that is given once is asked for again, but for the one that was given last. */
static void asks_again(void)
{
    rdlpp_handle handle = RDLPP_CLOSED_HANDLE;
    rdlpp_outcome outcome;
    open_asking(&handle);
    outcome = read_some(&handle);
    check(give_once(&handle, "m", "`include \"i\"\n`include \"i\"\n`include \"j\"\n`include \"i\"\nend\n") == RDLPP_WHOLE,
        "the main text");
    outcome = read_some(&handle);
    check(wants(&outcome, "i", 0), "an included source");
    check(give_once(&handle, "i", "one") == RDLPP_WHOLE, "it is there");
    outcome = read_some(&handle);
    check(wants(&outcome, "j", 10) && gave(&outcome, "one\n\none\n\n"), "the one that was given last isn't asked for again");
    check(give_once(&handle, "j", "two") == RDLPP_WHOLE, "the other one");
    outcome = read_some(&handle);
    check(wants(&outcome, "i", 5) && gave(&outcome, "two\n\n"), "one that went is asked for again");
    check(give_once(&handle, "i", "one") == RDLPP_WHOLE, "the same text");
    outcome = read_some(&handle);
    check(outcome.status == RDLPP_WHOLE && gave(&outcome, "one\n\nend\n"), "the rest, of a main text that went from what is known");
    rdlpp_close(&handle);
}

/* A text that reads otherwise at a later include ends the output there. */
static void refuses_another_text(const char *other)
{
    rdlpp_handle handle = RDLPP_CLOSED_HANDLE;
    rdlpp_outcome outcome;
    open_asking(&handle);
    check(give(&handle, "m", "`include \"i\"\n`include \"j\"\n`include \"i\"\nend\n") == RDLPP_WHOLE, "the main text");
    outcome = read_some(&handle);
    check(wants(&outcome, "i", 0) && give_once(&handle, "i", "a text of some length") == RDLPP_WHOLE, "an included source");
    outcome = read_some(&handle);
    check(wants(&outcome, "j", 23) && give_once(&handle, "j", "") == RDLPP_WHOLE, "an empty one");
    outcome = read_some(&handle);
    check(wants(&outcome, "i", 1), "the first one again");
    check(give_once(&handle, "i", other) == RDLPP_CHANGED, "another text");
    check(give_once(&handle, "i", "a text of some length") == RDLPP_WHOLE, "the first one comes too late");
    outcome = read_some(&handle);
    check(outcome.status == RDLPP_STOPPED && outcome.number == RDLPP_FAULT_READ_FAILED && outcome.line == 3, "its fault");
    check(outcome.name_length == 1 && name[0] == 'm', "at its include");
    outcome = read_some(&handle);
    check(outcome.status == RDLPP_STOPPED && outcome.number == RDLPP_FAULT_READ_FAILED && outcome.length == 0, "told again");
    check(notes_are(&handle, "rdlpp: note: i: its text has changed since it was read first\n"), "its note");
    rdlpp_close(&handle);
}

/* The notes on a source that can't be opened name no other one, whose text has changed and which wasn't asked for. */
static void notes_what_ended_it(void)
{
    rdlpp_handle handle = RDLPP_CLOSED_HANDLE;
    rdlpp_outcome outcome;
    open_asking(&handle);
    check(give(&handle, "m", "`include \"i\"\n`include \"j\"\n`include \"k\"\n") == RDLPP_WHOLE, "the main text");
    outcome = read_some(&handle);
    check(wants(&outcome, "i", 0) && give_once(&handle, "i", "one") == RDLPP_WHOLE, "an included source");
    outcome = read_some(&handle);
    check(wants(&outcome, "j", 5) && give_once(&handle, "j", "") == RDLPP_WHOLE, "an empty one");
    outcome = read_some(&handle);
    check(wants(&outcome, "k", 1) && give_once(&handle, "i", "two") == RDLPP_CHANGED, "another text that isn't asked for");
    check(give_failed(&handle, "k") == RDLPP_WHOLE, "what was asked for can't be opened");
    outcome = read_some(&handle);
    check(outcome.status == RDLPP_STOPPED && outcome.number == RDLPP_FAULT_READ_FAILED && outcome.line == 3, "its fault");
    check(notes_are(&handle, ""), "no note");
    rdlpp_close(&handle);
}

/* What is given once goes after what is known, and is asked for again while it is open. */
static void gives_once_what_is_known(void)
{
    static const char guarded[] = "`ifndef G\n`define G\n`include \"j\"\n`endif\n";
    rdlpp_handle handle = RDLPP_CLOSED_HANDLE;
    rdlpp_request request = asking();
    rdlpp_outcome outcome;
    open_asking(&handle);
    check(give(&handle, "m", "`include \"i\"\n`include \"k\"\n`include \"i\"\n") == RDLPP_WHOLE, "the main text");
    check(give_once(&handle, "m", "other") == RDLPP_WHOLE, "a path of which something is known");
    outcome = read_some(&handle);
    check(wants(&outcome, "i", 0) && give_once(&handle, "i", guarded) == RDLPP_WHOLE, "a guarded source");
    outcome = read_some(&handle);
    check(wants(&outcome, "j", 2) && give_once(&handle, "j", "`include \"i\"\n") == RDLPP_WHOLE, "one that includes it");
    outcome = read_some(&handle);
    check(wants(&outcome, "i", 0) && give_once(&handle, "i", guarded) == RDLPP_WHOLE, "it is asked for while it is open");
    outcome = read_some(&handle);
    check(wants(&outcome, "k", 8) && give_absent(&handle, "k") == RDLPP_WHOLE, "one that isn't there");
    outcome = read_some(&handle);
    check(wants(&outcome, "inc/k", 0) && give(&handle, "inc/k", "k") == RDLPP_WHOLE, "the next candidate");
    outcome = read_some(&handle);
    check(outcome.status == RDLPP_WHOLE && gave(&outcome, "k\n\n\n\n\n\n\n"), "the text that was given last by this call stays");
    rdlpp_close(&handle);

    open_asking(&handle);
    check(give_once(&handle, "\xff", "x") == RDLPP_BAD_TEXT, "a path that isn't UTF-8");
    check(give_once(&handle, "m", "\xff") == RDLPP_WHOLE, "a text that isn't UTF-8");
    outcome = read_some(&handle);
    check(outcome.status == RDLPP_WHOLE && gave(&outcome, "\xff"), "is the output");
    rdlpp_close(&handle);
    check(give_once(&handle, "m", "x") == RDLPP_CLOSED, "a closed handle");

    request.asks = false;
    check(rdlpp_open(&request, name, sizeof name, word, sizeof word, &handle).status == RDLPP_WHOLE, "it opens");
    check(give_once(&handle, "m", "x") == RDLPP_WHOLE, "a give to a handle that doesn't ask");
    outcome = read_some(&handle);
    check(outcome.status == RDLPP_STOPPED && outcome.number == RDLPP_FAULT_SOURCE_NOT_FOUND, "changes nothing");
    rdlpp_close(&handle);
}

/* A text may be given by parts, whose last one has no bytes of its own; none is left after what is told next. */
static void gives_by_parts(void)
{
    rdlpp_handle handle = RDLPP_CLOSED_HANDLE;
    rdlpp_outcome outcome;
    open_asking(&handle);
    check(give_part(&handle, "`include \"i\"\n`inc", 3) == RDLPP_WHOLE, "a part before the main text is asked for");
    outcome = read_some(&handle);
    check(wants(&outcome, "m", 0), "which is no text yet");
    check(give_part(&handle, "lude \"j\"\n", 0) == RDLPP_WHOLE && give_part(&handle, "", 100) == RDLPP_WHOLE, "parts");
    check(give(&handle, "m", "`include \"i\"\nend\n") == RDLPP_WHOLE, "the rest of the main text");
    outcome = read_some(&handle);
    check(wants(&outcome, "i", 0) && give_part(&handle, "on", 0) == RDLPP_WHOLE, "a part of an included source");
    check(give_once(&handle, "i", "e") == RDLPP_WHOLE, "its rest");
    outcome = read_some(&handle);
    check(wants(&outcome, "j", 5) && gave(&outcome, "one\n\n"), "both are its text");
    check(give_part(&handle, "two", 0) == RDLPP_WHOLE && give_once(&handle, "j", "") == RDLPP_WHOLE, "a text that is one part");
    outcome = read_some(&handle);
    check(wants(&outcome, "i", 5) && gave(&outcome, "two\n\n"), "the first one again");
    check(give_part(&handle, "o", 0) == RDLPP_WHOLE && give_once(&handle, "i", "ne") == RDLPP_WHOLE, "the same text in other parts");
    outcome = read_some(&handle);
    check(outcome.status == RDLPP_WHOLE && gave(&outcome, "one\n\nend\n"), "the rest");
    rdlpp_close(&handle);
    check(give_part(&handle, "x", 0) == RDLPP_CLOSED, "a closed handle");
}

/* Parts go with whatever is told next, whatever its answer, and with what was open. */
static void leaves_no_part(void)
{
    const rdlpp_request request = asking();
    rdlpp_handle handle = RDLPP_CLOSED_HANDLE;
    rdlpp_outcome outcome;
    open_asking(&handle);
    check(give_part(&handle, "lost", 0) == RDLPP_WHOLE && give(&handle, "\xff", "") == RDLPP_BAD_TEXT, "a path that isn't UTF-8");
    check(give(&handle, "m", "`include \"i\"\n`include \"j\"\n`include \"k\"\n") == RDLPP_WHOLE, "a text alone");
    check(give_part(&handle, "lost", 0) == RDLPP_WHOLE && give(&handle, "m", "") == RDLPP_WHOLE, "a path of which a text is known");
    outcome = read_some(&handle);
    check(wants(&outcome, "i", 0) && give_part(&handle, "lost", 0) == RDLPP_WHOLE, "a part");
    check(give_absent(&handle, "i") == RDLPP_WHOLE && give(&handle, "inc/i", "a") == RDLPP_WHOLE, "of a source that isn't there");
    outcome = read_some(&handle);
    check(wants(&outcome, "j", 3) && gave(&outcome, "a\n\n"), "the text alone");
    check(give_part(&handle, "lost", 0) == RDLPP_WHOLE && give_once(&handle, "\xff", "") == RDLPP_BAD_TEXT, "once");
    check(give_once(&handle, "j", "b") == RDLPP_WHOLE, "a text that is given once");
    outcome = read_some(&handle);
    check(wants(&outcome, "k", 3) && gave(&outcome, "b\n\n"), "the first text alone");
    check(give_part(&handle, "lost", 0) == RDLPP_WHOLE && give_failed(&handle, "never") == RDLPP_WHOLE, "one that can't be opened");
    check(give(&handle, "k", "c") == RDLPP_WHOLE, "a text");
    outcome = read_some(&handle);
    check(outcome.status == RDLPP_WHOLE && gave(&outcome, "c\n\n"), "that one alone");
    check(give_part(&handle, "lost", 0) == RDLPP_WHOLE, "a part that nothing follows");
    check(rdlpp_reopen(&request, name, sizeof name, word, sizeof word, &handle).status == RDLPP_WHOLE, "it is opened again");
    check(give(&handle, "m", "d") == RDLPP_WHOLE, "another main text");
    outcome = read_some(&handle);
    check(outcome.status == RDLPP_WHOLE && gave(&outcome, "d"), "alone");
    rdlpp_close(&handle);
}

/* A text that is lent is read where it stands, as often as it is included, and with no part in front of it. */
static void lends_what_stands(void)
{
    rdlpp_handle handle = RDLPP_CLOSED_HANDLE;
    rdlpp_outcome outcome;
    open_asking(&handle);
    check(lend(&handle, "\xff", "x") == RDLPP_BAD_TEXT, "a path that isn't UTF-8");
    check(give_part(&handle, "lost", 0) == RDLPP_WHOLE, "a part in front of what is lent");
    check(lend(&handle, "m", "`include \"i\"\n`include \"i\"\n") == RDLPP_WHOLE, "a main text that is lent");
    outcome = read_some(&handle);
    check(wants(&outcome, "i", 0) && lend(&handle, "i", "one") == RDLPP_WHOLE, "an included source that is lent");
    check(lend(&handle, "i", "two") == RDLPP_WHOLE && give(&handle, "m", "two") == RDLPP_WHOLE, "others of these paths");
    outcome = read_some(&handle);
    check(outcome.status == RDLPP_WHOLE && gave(&outcome, "one\n\none\n\n"), "the first of each");
    rdlpp_close(&handle);
    check(lend(&handle, "m", "x") == RDLPP_CLOSED, "a closed handle");
}

/* Any byte of a text that changes is seen, and so is any length. */
static void sees_each_change(size_t length)
{
    char *text = malloc(length + 1);
    size_t at;
    memset(text, 'a', length + 1);
    for (at = 0; at <= length; at += 1) {
        rdlpp_handle handle = RDLPP_CLOSED_HANDLE;
        open_asking(&handle);
        check(rdlpp_give_once(&handle, "i", 1, text, length) == RDLPP_WHOLE, "a text");
        check(give_once(&handle, "j", "") == RDLPP_WHOLE, "another source");
        check(rdlpp_give_once(&handle, "i", 1, text, length) == RDLPP_WHOLE, "the same text");
        check(give_once(&handle, "j", "") == RDLPP_WHOLE, "the other source again");
        text[at] = 'b';
        check(rdlpp_give_once(&handle, "i", 1, text, at < length ? length : length + 1) == RDLPP_CHANGED, "a change");
        text[at] = 'a';
        rdlpp_close(&handle);
    }
    free(text);
}

/* A buffer of length 0 is full at once, also where a source is asked for. */
static void asks_with_short_buffers(void)
{
    rdlpp_handle handle = RDLPP_CLOSED_HANDLE;
    rdlpp_outcome outcome;
    open_asking(&handle);
    outcome = rdlpp_read(&handle, out, 0, name, 0, word, 0);
    check(outcome.status == RDLPP_MORE && outcome.length == 0, "no room");
    outcome = rdlpp_read(&handle, out, 1, name, 0, word, 0);
    check(outcome.status == RDLPP_WANTED && outcome.name_length == 1, "no room for the path");
    outcome = rdlpp_read(&handle, out, 0, name, 0, word, 0);
    check(outcome.status == RDLPP_MORE, "no room again");
    check(give(&handle, "m", "ab") == RDLPP_WHOLE, "the text");
    outcome = rdlpp_read(&handle, out, 1, name, 0, word, 0);
    check(outcome.status == RDLPP_MORE && out[0] == 'a', "its first byte");
    rdlpp_close(&handle);
}

/* A main text of so many includes, each of a source of its own. */
static void asks_many_times(int count)
{
    const size_t line = 22;
    char *source = malloc((size_t)count * line + 1);
    rdlpp_handle handle = RDLPP_CLOSED_HANDLE;
    rdlpp_outcome outcome;
    int at, given = 0;
    size_t length = 0;
    open_asking(&handle);
    outcome = read_some(&handle);
    for (at = 0; at < count; at += 1) {
        sprintf(source + (size_t)at * line, "`include \"/file/%04d\"\n", at);
    }
    check(rdlpp_give(&handle, "m", 1, source, (size_t)count * line) == RDLPP_WHOLE, "the main text");
    do {
        outcome = read_some(&handle);
        length += outcome.length;
        if (outcome.status == RDLPP_WANTED) {
            check(rdlpp_give(&handle, name, outcome.name_length, "x", 1) == RDLPP_WHOLE, "an included source");
            given += 1;
        }
    } while (outcome.status == RDLPP_WANTED || outcome.status == RDLPP_MORE);
    check(outcome.status == RDLPP_WHOLE && given == count, "each is asked for once");
    check(length == (size_t)count * 3, "all of the output");
    rdlpp_close(&handle);
    free(source);
}

/* 32 doublings of nothing: each read comes back. How long one takes at most is told, and has no bound here. */
static void comes_back_from_nothing(int reads)
{
    char source[2000] = "`define A0\n";
    struct timespec before, after;
    double most = 0;
    rdlpp_handle handle = RDLPP_CLOSED_HANDLE;
    rdlpp_outcome outcome;
    int at;
    open_asking(&handle);
    for (at = 1; at <= 32; at += 1) {
        sprintf(source + strlen(source), "`define A%d `A%d`A%d\n", at, at - 1, at - 1);
    }
    strcat(source, "`A32\n");
    check(give(&handle, "m", source) == RDLPP_WHOLE, "the main text");
    for (at = 0; at < reads; at += 1) {
        double seconds;
        clock_gettime(CLOCK_MONOTONIC, &before);
        outcome = read_some(&handle);
        clock_gettime(CLOCK_MONOTONIC, &after);
        check(outcome.status == RDLPP_MORE && (at == 0 || outcome.length == 0), "a read comes back with no bytes");
        seconds = (double)(after.tv_sec - before.tv_sec) + (double)(after.tv_nsec - before.tv_nsec) / 1e9;
        most = seconds > most ? seconds : most;
    }
    printf("pulls.c: a read of nothing takes %.2f ms at most\n", most * 1e3);
    rdlpp_close(&handle);
}

/*
 * Ten doublings of nothing before each byte: a read of 4,096 bytes comes back after a few of them, with a line map or without, and
 * all are read.
 */
static void comes_back_between_bytes(int count, int is_mapped)
{
    static char source[10000] = "`define A0\n", map[RDLPP_MAP_ROOM];
    size_t length = 0;
    rdlpp_handle handle = RDLPP_CLOSED_HANDLE;
    rdlpp_outcome outcome;
    int at;
    source[11] = '\0';
    open_asking(&handle);
    for (at = 1; at <= 10; at += 1) {
        sprintf(source + strlen(source), "`define A%d `A%d`A%d\n", at, at - 1, at - 1);
    }
    for (at = 0; at < count; at += 1) {
        strcat(source, "`A10.");
    }
    check(give(&handle, "m", source) == RDLPP_WHOLE, "the main text");
    do {
        outcome = is_mapped
            ? rdlpp_read_mapped(&handle, out, ROOM, map, sizeof map, name, sizeof name, word, sizeof word).outcome
            : read_some(&handle);
        check(outcome.length < 40, "a read comes back after a few bytes");
        length += outcome.length;
    } while (outcome.status == RDLPP_MORE);
    check(outcome.status == RDLPP_WHOLE && length == 11 + (size_t)count, "all of the output");
    rdlpp_close(&handle);
}

/* With an argument it does less, as over a memory checker. */
int main(int count, char **words)
{
    const int is_short = count > 1 && strcmp(words[1], "short") == 0;
    asks_for_each_candidate();
    tells_what_is_missing();
    takes_the_first_of_a_path();
    refuses_what_is_given();
    changes_nothing_that_is_told();
    asks_again();
    refuses_another_text("a text of same length");
    refuses_another_text("a text of some length, and more");
    refuses_another_text("");
    notes_what_ended_it();
    gives_once_what_is_known();
    gives_by_parts();
    leaves_no_part();
    lends_what_stands();
    sees_each_change(is_short ? 9 : 67);
    asks_with_short_buffers();
    asks_many_times(is_short ? 100 : 10000);
    comes_back_from_nothing(is_short ? 2 : 200);
    comes_back_between_bytes(is_short ? 50 : 1000, 0);
    comes_back_between_bytes(is_short ? 50 : 1000, 1);
    return failures == 0 ? EXIT_SUCCESS : EXIT_FAILURE;
}
