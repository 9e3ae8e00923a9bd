/* The rows of crates/rdlpp_rows/data, in one call, by reads of one and of seven bytes, with texts that are asked for, once or
   at each include, and by a handle that another row was read by, to its end or halfway; `calls` writes rows.inc. */
#include "checking.h"
#include "row.h"

#include <stdio.h>
#include <stdlib.h>
#include <string.h>

#define NAME_ROOM 1024
#define WORD_ROOM 128

/* Whether a call or a read ended as its row has to, with that shown name and that word. */
static int ends(const struct row *row, const rdlpp_outcome *outcome, const char *name, const char *word)
{
    if (row->number == 0) {
        return outcome->status == RDLPP_WHOLE;
    }
    return outcome->status == RDLPP_STOPPED && outcome->number == row->number && outcome->line == row->line
        && outcome->name_length == row->name_length && memcmp(name, row->name, row->name_length) == 0
        && outcome->word_length == row->word_length && memcmp(word, row->word, row->word_length) == 0;
}

static void calls_once(const struct row *row, char *out)
{
    char name[NAME_ROOM], word[WORD_ROOM];
    const rdlpp_request request = asked(row);
    const rdlpp_outcome outcome = rdlpp_preprocess(&request, out, row->output_length, name, sizeof name, word, sizeof word);
    check_of(ends(row, &outcome, name, word), row->shows, "how one call ends");
    check_of(outcome.length == row->output_length && memcmp(out, row->output, row->output_length) == 0, row->shows, "its output");
}

/* The text of the row at a path, if it has one. */
static const rdlpp_text *find_text(const struct row *row, const char *path, size_t length)
{
    size_t at;
    for (at = 0; at < row->texts_length; at += 1) {
        if (row->texts[at].path_length == length && memcmp(row->texts[at].path, path, length) == 0) {
            return &row->texts[at];
        }
    }
    return NULL;
}

/* A call that gives a text. */
typedef uint32_t gives(rdlpp_handle *, const char *, size_t, const char *, size_t);

/* Gives what is asked for, by a call: the row's text, or that it is absent. */
static void give(gives *by, const struct row *row, rdlpp_handle *handle, const char *path, size_t length)
{
    const rdlpp_text *text = find_text(row, path, length);
    const uint32_t status = text != NULL ? by(handle, path, length, text->text, text->text_length)
                                         : rdlpp_give_absent(handle, path, length);
    check_of(status == RDLPP_WHOLE, row->shows, "what a give answers");
}

/* Opens a handle, again where it is open, and reads so many bytes at a time; where there is a call that gives texts, each is given
   by it when it is asked for. */
static void reads_by(rdlpp_handle *handle, const struct row *row, char *out, size_t room, gives *by, bool pieces)
{
    char name[NAME_ROOM], word[WORD_ROOM];
    rdlpp_request request = asked(row);
    size_t length = 0;
    rdlpp_outcome outcome;
    request.asks = by != NULL;
    request.pieces = pieces;
    request.texts_length = request.asks ? 0 : request.texts_length;
    outcome = (handle->is_open ? rdlpp_reopen : rdlpp_open)(&request, name, sizeof name, word, sizeof word, handle);
    if (outcome.status == RDLPP_WHOLE) {
        do {
            const size_t left = row->output_length + room - length;
            const size_t most = left < room ? left : room;
            outcome = rdlpp_read(handle, out + length, most, name, sizeof name, word, sizeof word);
            length += outcome.length;
            if (outcome.status == RDLPP_WANTED) {
                give(by, row, handle, name, outcome.name_length);
            }
        } while ((outcome.status == RDLPP_MORE || outcome.status == RDLPP_WANTED) && length <= row->output_length);
    }
    check_of(ends(row, &outcome, name, word), row->shows, "how reads end");
    check_of(length == row->output_length && memcmp(out, row->output, row->output_length) == 0, row->shows, "what reads give");
}

static void reads(const struct row *row, char *out, size_t room, gives *by, bool pieces)
{
    rdlpp_handle handle = RDLPP_CLOSED_HANDLE;
    reads_by(&handle, row, out, room, by, pieces);
    rdlpp_close(&handle);
}

/* Opens a handle that another row was read by, and reads half of the output. */
static void begins(rdlpp_handle *handle, const struct row *row, char *out)
{
    char name[NAME_ROOM], word[WORD_ROOM];
    const rdlpp_request request = asked(row);
    const size_t half = row->output_length / 2;
    const rdlpp_outcome outcome = rdlpp_reopen(&request, name, sizeof name, word, sizeof word, handle);
    if (outcome.status == RDLPP_WHOLE) {
        rdlpp_read(handle, out, half, name, sizeof name, word, sizeof word);
    }
}

int main(void)
{
    rdlpp_handle whole = RDLPP_CLOSED_HANDLE, half = RDLPP_CLOSED_HANDLE;
    size_t at;
    for (at = 0; at < sizeof rows / sizeof rows[0]; at += 1) {
        const struct row *row = &rows[at];
        char *out = malloc(row->output_length + 7);
        if (out == NULL) {
            return 2;
        }
        calls_once(row, out);
        reads(row, out, 1, NULL, false);
        reads(row, out, 7, NULL, true);
        reads(row, out, 7, rdlpp_give, false);
        reads(row, out, 7, rdlpp_give_once, false);
        reads(row, out, 7, rdlpp_lend, false);
        reads_by(&whole, row, out, 7, NULL, true);
        reads_by(&whole, row, out, 7, rdlpp_give_once, false);
        reads_by(&half, row, out, 7, NULL, false);
        begins(&half, row, out);
        free(out);
    }
    rdlpp_close(&whole);
    rdlpp_close(&half);
    return failures == 0 ? 0 : 1;
}
