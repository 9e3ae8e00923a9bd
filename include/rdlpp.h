/*
 * rdlpp.h: the preprocessor for SystemRDL as a library for C99 and C++.
 *
 * NAME
 *     rdlpp_standard_limits, rdlpp_standard_request, rdlpp_preprocess,
 *     rdlpp_open, rdlpp_reopen, rdlpp_read, rdlpp_read_mapped, rdlpp_position, rdlpp_definitions, rdlpp_notes, rdlpp_close,
 *     rdlpp_give, rdlpp_give_part, rdlpp_give_once, rdlpp_lend, rdlpp_give_absent, rdlpp_give_failed,
 *     rdlpp_fault_text, rdlpp_version
 *
 * LINKING
 *     librdlpp_c.a has all that is needed but the C library, and so has librdlpp_c.so; `make c` makes both,
 *     and rdlpp.pc says how an installed one is linked. Their only global names are those below.
 *
 * OWNERSHIP
 *     What a pointer leads to is lent for the call. The library keeps no pointer when a call returns, but that to a
 *     text which rdlpp_lend lends, and nothing has to be freed but what an open handle owns. What a call takes by `const` it only reads. While a call runs,
 *     nobody else writes what was lent, and nobody else reads the buffers that it writes; these lie
 *     apart from each other and from all that is lent by `const`.
 *
 * LENGTHS
 *     Each array and each text is a pointer and a length, in elements or bytes; no text ends in a zero
 *     byte. No pointer is null, also where its length is 0: pass "" or the address of any object.
 *     A buffer may have the length 0. A length is at most PTRDIFF_MAX.
 *
 * TEXTS TOLD IN BUFFERS
 *     A text is written to a buffer as by snprintf, but without a zero byte: its first bytes, as many
 *     as the buffer has room for; and its whole length is told. The bytes of the buffer after them
 *     stay as they are.
 *
 * HANDLES
 *     A handle begins closed, as RDLPP_CLOSED_HANDLE makes it. rdlpp_open and rdlpp_reopen open it, and what
 *     it then owns is given back by rdlpp_close, by the next rdlpp_open of it, by an rdlpp_reopen that needs
 *     other memory or is refused, and by nothing else. A handle that is closed may be passed to each call:
 *     rdlpp_close does nothing, rdlpp_open and rdlpp_reopen open it, and the others tell so.
 *     Nobody changes what is in a handle, and of an open one nobody uses a copy: only the object that
 *     was opened is passed on. A handle may be used in any thread, by one call at a time.
 *
 * THREADS
 *     Calls share nothing, so they may run at once in several threads. They are not for signal handlers.
 *
 * MEMORY
 *     A call uses malloc, realloc and free, and gives all back before it returns, but for what an open
 *     handle owns. Beside lists as long as the arrays that were lent, and the definitions, it holds at most
 *     definition_bytes + argument_bytes + (includes + 1) * line_bytes bytes of text, and tables of fixed
 *     size; the output goes straight to `out`. An open handle holds copies of the arrays that were lent
 *     and of all that it was given, but for the texts of rdlpp_lend, and that same text and those tables. Of what was given by rdlpp_give_once
 *     it holds the texts that are being read, each as often as it is open, and the one that was given last.
 *     rdlpp_read and rdlpp_read_mapped ask for no memory; rdlpp_reopen of an open handle with the limits by which
 *     it was opened asks for what it copies of the request and for no more, and holds what the handle held
 *     of the request before until these copies are made.
 */
#ifndef RDLPP_H
#define RDLPP_H

#include <stddef.h>
#include <stdint.h>
#ifndef __cplusplus
#include <stdbool.h>
#endif

#ifdef __cplusplus
extern "C" {
#endif

/* How much of each thing a call may use. rdlpp_standard_limits gives the standard values. */
typedef struct rdlpp_limits {
    size_t depth;            /* bodies, actuals and default texts open at once: 1 to 1,024 */
    size_t includes;         /* included sources that are open at once: 0 to 64 */
    size_t line_bytes;       /* bytes of a line or a logical line, with its LF: 256 to 1,048,576 */
    size_t source_bytes;     /* bytes of one source: 1 to 1,073,741,824 */
    size_t argument_bytes;   /* bytes of the kept text of one call of a macro: 16 to 1,048,576 */
    size_t definition_bytes; /* bytes of all live definitions together: 1,024 to 16,777,216 */
    size_t definitions;      /* live definitions: 1 to 65,536 */
    size_t conditions;       /* conditionals that are open at once, over all sources: 1 to 4,096 */
    uint64_t output_bytes;   /* bytes of the output: any number */
} rdlpp_limits;

/* A source in memory. The first one of a path counts. */
typedef struct rdlpp_text {
    const char *path; /* the path under which it is found, in UTF-8 */
    size_t path_length;
    const char *text; /* its bytes, of any encoding */
    size_t text_length;
} rdlpp_text;

/* An include folder. They are searched in order, after the folder of the including source. */
typedef struct rdlpp_folder {
    const char *path; /* in UTF-8 */
    size_t path_length;
} rdlpp_folder;

/* A macro without a formal list, which is defined before the main text is opened. */
typedef struct rdlpp_definition {
    const char *name; /* in UTF-8 */
    size_t name_length;
    const char *text; /* its body, in UTF-8 */
    size_t text_length;
} rdlpp_definition;

/* The kinds of faults, each by its number. rdlpp_fault_text has their texts. */
enum rdlpp_fault {
    RDLPP_FAULT_EMBEDDED_PERL = 1,
    RDLPP_FAULT_STRING_NOT_CLOSED = 2,
    RDLPP_FAULT_COMMENT_NOT_CLOSED = 3,
    RDLPP_FAULT_LINE_TOO_LONG = 4,
    RDLPP_FAULT_SOURCE_TOO_LONG = 5,
    RDLPP_FAULT_BACKQUOTE_WITHOUT_A_NAME = 6,
    RDLPP_FAULT_UNDEFINED_MACRO = 7,
    RDLPP_FAULT_RECURSIVE_MACRO = 8,
    RDLPP_FAULT_DIRECTIVE_IN_MACRO_TEXT = 9,
    RDLPP_FAULT_ARGUMENTS_MISSING = 10,
    RDLPP_FAULT_ARGUMENTS_NOT_CLOSED = 11,
    RDLPP_FAULT_ARGUMENT_BYTES_PASSED = 12,
    RDLPP_FAULT_WRONG_NUMBER_OF_ARGUMENTS = 13,
    RDLPP_FAULT_DEPTH_PASSED = 14,
    RDLPP_FAULT_NAME_EXPECTED = 15,
    RDLPP_FAULT_RESERVED_NAME = 16,
    RDLPP_FAULT_NAME_TOO_LONG = 17,
    RDLPP_FAULT_BAD_FORMAL_LIST = 18,
    RDLPP_FAULT_FORMAL_GIVEN_TWICE = 19,
    RDLPP_FAULT_TOO_MANY_FORMALS = 20,
    RDLPP_FAULT_DEFINITION_BYTES_PASSED = 21,
    RDLPP_FAULT_TOO_MANY_DEFINITIONS = 22,
    RDLPP_FAULT_BRANCH_OR_ENDIF_WITHOUT_CONDITIONAL = 23,
    RDLPP_FAULT_BRANCH_AFTER_ELSE = 24,
    RDLPP_FAULT_CONDITIONAL_NOT_CLOSED = 25,
    RDLPP_FAULT_TOO_MANY_OPEN_CONDITIONALS = 26,
    RDLPP_FAULT_INCLUDE_NAME_EXPECTED = 27,
    RDLPP_FAULT_SOURCE_NOT_FOUND = 28,
    RDLPP_FAULT_TOO_MANY_OPEN_INCLUDES = 29,
    RDLPP_FAULT_BAD_LINE_DIRECTIVE = 30,
    RDLPP_FAULT_PATH_TOO_LONG = 31,
    RDLPP_FAULT_READ_FAILED = 32,
    RDLPP_FAULT_WRITE_FAILED = 33,
    RDLPP_FAULT_NO_MEMORY_FOR_A_SOURCE = 34,
    RDLPP_FAULT_OUTPUT_BYTES_PASSED = 35
};

/* How a call ended. */
enum {
    RDLPP_WHOLE = 0,     /* the output is whole */
    RDLPP_STOPPED = 1,   /* a fault of the text or of a definition ended the output */
    RDLPP_BAD_LIMIT = 2, /* a limit is out of its range; nothing was written */
    RDLPP_BAD_TEXT = 3,  /* a path, a name or a body isn't UTF-8; nothing was written */
    RDLPP_NO_MEMORY = 4, /* memory was refused; nothing was written */
    RDLPP_MORE = 5,      /* a read: it ended before the output did, and more may follow */
    RDLPP_CLOSED = 6,    /* the handle is closed; nothing was written */
    RDLPP_WANTED = 7,    /* a read: a source is asked for, whose path is in `name` */
    RDLPP_SHORT_MAP = 8, /* rdlpp_read_mapped: `map` is shorter than RDLPP_MAP_ROOM; nothing was written */
    RDLPP_CHANGED = 9    /* rdlpp_give_once: the text isn't the one that was given of this path before */
};

/* How a call ended, in numbers; each that isn't named for a status is 0 there. */
typedef struct rdlpp_outcome {
    uint32_t status;    /* one of those above */
    uint32_t number;    /* RDLPP_STOPPED: the number of the fault, one of enum rdlpp_fault;
                           RDLPP_BAD_LIMIT: the place of the limit in rdlpp_limits, from 1 */
    uint64_t line;      /* RDLPP_STOPPED: the shown line, from 1; 0 where no line is meant */
    uint64_t length;    /* RDLPP_WHOLE, RDLPP_STOPPED: how many bytes the output has;
                           of a read, also RDLPP_MORE and RDLPP_WANTED: how many bytes it wrote */
    size_t name_length; /* RDLPP_STOPPED: how many bytes the shown name has, at most 1,024;
                           RDLPP_WANTED: how many bytes the path has that is asked for, at most 1,024 */
    size_t word_length; /* RDLPP_STOPPED: how many bytes the word has that the fault is about,
                           at most 128; 0 where it is about none */
} rdlpp_outcome;

/*
 * What is asked for. rdlpp_standard_request makes one, and the caller changes the fields that it wants.
 *
 * limits       the limits; one that is out of its range is told before anything else is looked at.
 * origins      whether lines `// origin: NAME:LINE` are written.
 * asks         of a handle: whether a source that isn't among `texts` is asked for, by RDLPP_WANTED.
 *              Else, and in rdlpp_preprocess, it isn't there.
 * pieces       of a handle: whether each read ends at a place's end, so that rdlpp_position tells the
 *              place of what it wrote.
 * texts        the sources in memory, the main one among them where it isn't asked for.
 * folders      the include folders, in the order of the search.
 * definitions  macros that are defined first, in order. A refused one is told as a fault, under the
 *              shown name `-D`, with its place from 1 as the line.
 * path         the path of the main text, in UTF-8.
 */
typedef struct rdlpp_request {
    rdlpp_limits limits;
    bool origins;
    bool asks;
    bool pieces;
    const rdlpp_text *texts;
    size_t texts_length;
    const rdlpp_folder *folders;
    size_t folders_length;
    const rdlpp_definition *definitions;
    size_t definitions_length;
    const char *path;
    size_t path_length;
} rdlpp_request;

/* The standard limits. */
rdlpp_limits rdlpp_standard_limits(void);

/* A request with the standard limits, `false` in each flag, empty lists and an empty path. */
static inline rdlpp_request rdlpp_standard_request(void)
{
    static const rdlpp_text no_text = {"", 0, "", 0};
    static const rdlpp_folder no_folder = {"", 0};
    static const rdlpp_definition no_definition = {"", 0, "", 0};
    rdlpp_request request = {
        rdlpp_standard_limits(), false, false, false, &no_text, 0, &no_folder, 0, &no_definition, 0, "", 0
    };
    return request;
}

/*
 * Preprocesses the main text of a request.
 *
 * out          takes the output: all of it, or all before the fault that ended it.
 * name, word   take the shown name and the word of the fault; 1,024 and 128 bytes are always enough.
 *
 * The answer is RDLPP_BAD_LIMIT exactly where a limit is out of its range; then RDLPP_BAD_TEXT exactly
 * where something isn't UTF-8 that has to be, unless memory was refused before that was seen; then
 * RDLPP_NO_MEMORY where memory was refused; and else RDLPP_WHOLE or RDLPP_STOPPED, by the text alone.
 */
rdlpp_outcome rdlpp_preprocess(
    const rdlpp_request *request,
    char *out, size_t out_length,
    char *name, size_t name_length,
    char *word, size_t word_length);

/* An output that is open, or none. Its fields are the library's own. */
typedef struct rdlpp_handle {
    bool is_open;
    void *at;
} rdlpp_handle;

/* A closed handle. */
#define RDLPP_CLOSED_HANDLE {false, NULL}

/*
 * Opens the main text of a request, so that its output is read piece by piece. All that is lent is copied.
 *
 * The answers are those of rdlpp_preprocess but for RDLPP_WHOLE, by which the handle is open; with every
 * other one it is closed. RDLPP_STOPPED is the fault of a refused definition; a fault of the opening, as of
 * a main text that isn't there, is told by the first rdlpp_read, and so is a main text that is asked for.
 * A handle that is open is closed first.
 */
rdlpp_outcome rdlpp_open(
    const rdlpp_request *request,
    char *name, size_t name_length,
    char *word, size_t word_length,
    rdlpp_handle *handle);

/*
 * Opens the main text of a request as rdlpp_open does, with the same answers, but uses the memory of an open handle
 * again where the request has the limits by which it was opened: all of them, also `output_bytes`. So a loop over
 * many sources asks once for the tables. Nothing of the output before is seen, wherever it ended: no macro, no fault, no
 * text that was given, and no path that was asked for.
 *
 * A closed handle, and one of other limits, is opened as by rdlpp_open. With each answer but RDLPP_WHOLE the handle is
 * closed, and what it owned is given back.
 */
rdlpp_outcome rdlpp_reopen(
    const rdlpp_request *request,
    char *name, size_t name_length,
    char *word, size_t word_length,
    rdlpp_handle *handle);

/*
 * Writes the next bytes of the output to `out`. The bytes of `out` after them stay. The bytes of all
 * reads, in order, are the output of rdlpp_preprocess.
 *
 * The answer is RDLPP_WHOLE where the output ended, RDLPP_STOPPED where a fault ended it, and RDLPP_CLOSED
 * where the handle is closed. After the end, and after a fault, each later read answers the same again with
 * no bytes, unless `out` has the length 0, which is always full.
 *
 * The answer is RDLPP_MORE where `out` is full. It is also that, perhaps with no bytes, after at most 65,536
 * steps in all that gave none, so that a read comes back, mostly in milliseconds, and the caller may stop
 * (SECURITY.md has the longest reads); and, where the request has `pieces`, at the end of what stands at
 * one place. So a caller reads on until the answer is another.
 *
 * Where the request has `asks`, the answer is RDLPP_WANTED where a source is needed of which nothing is
 * known: its path is told in `name`, and its length in `name_length` of the answer. The caller tells what is
 * there by rdlpp_give, rdlpp_give_once, rdlpp_lend, rdlpp_give_absent or rdlpp_give_failed, and reads on. Where it reads
 * on without, the same source is asked for again, and nothing changes. The paths that are asked for are those
 * that a search tries, in order: the name in the folder of the including source, then in each include folder.
 */
rdlpp_outcome rdlpp_read(
    rdlpp_handle *handle,
    char *out, size_t out_length,
    char *name, size_t name_length,
    char *word, size_t word_length);

/*
 * Tells a handle the text of the source at `path`, which is copied; the parts that rdlpp_give_part gave before stand in
 * front of it. A path that wasn't asked for is kept for later. The first that is told of a path counts, also one of
 * `texts`: a later one changes nothing. To a handle whose request doesn't have `asks` no source can be added: the answer is
 * RDLPP_WHOLE all the same, and nothing changes.
 *
 * The answer is RDLPP_WHOLE; RDLPP_BAD_TEXT where `path` isn't UTF-8, RDLPP_NO_MEMORY where memory was
 * refused, and RDLPP_CLOSED where the handle is closed: with these nothing changed, but that no part is left.
 */
uint32_t rdlpp_give(
    rdlpp_handle *handle,
    const char *path, size_t path_length,
    const char *text, size_t text_length);

/*
 * Gives a handle a part of the next text, which is copied: what rdlpp_give or rdlpp_give_once gives next goes on
 * after it, as after the parts before it. So a file is given while it is read, and the last call may give no more
 * bytes. `more` is about how many bytes will follow, for which memory is asked at once; it may be 0.
 *
 * The parts belong to the next source that is told, by rdlpp_give, rdlpp_give_once, rdlpp_lend, rdlpp_give_absent or
 * rdlpp_give_failed, whatever the answer: none is left then.
 *
 * The answer is RDLPP_WHOLE; RDLPP_NO_MEMORY where memory was refused, and RDLPP_CLOSED where the handle is closed: with
 * these nothing changed.
 */
uint32_t rdlpp_give_part(rdlpp_handle *handle, const char *part, size_t part_length, size_t more);

/*
 * Tells a handle the text of the source at `path`, as rdlpp_give does, but keeps it no longer than until the next
 * text is given by this call: from then on only what reads it holds it, and it goes when that has ended. The same path is
 * asked for again at a later search, and the caller gives the same text once more.
 *
 * Of each path a length and a digest of 64 bits are kept. Where a text has others than the one that was given of
 * its path before, the answer is RDLPP_CHANGED, and the path is told as by rdlpp_give_failed: a search ends there,
 * by the fault RDLPP_FAULT_READ_FAILED; where the path was asked for, rdlpp_notes says why. The digest finds what
 * changed by chance. It is no protection against someone who makes two texts of one digest.
 *
 * The other answers are those of rdlpp_give. With RDLPP_NO_MEMORY nothing is known of the path, as before, and the text
 * that was given last by this call isn't kept any longer either.
 */
uint32_t rdlpp_give_once(
    rdlpp_handle *handle,
    const char *path, size_t path_length,
    const char *text, size_t text_length);

/*
 * Tells a handle the text of the source at `path`, as rdlpp_give does, with its answers, but copies nothing of the text: it is lent
 * until the handle is closed, or opened again. Until then nobody changes or frees it. Parts that were given before don't
 * stand in front of it.
 */
uint32_t rdlpp_lend(
    rdlpp_handle *handle,
    const char *path, size_t path_length,
    const char *text, size_t text_length);

/* Tells a handle that there is no source at `path`, as rdlpp_give does: a search goes on after it. */
uint32_t rdlpp_give_absent(rdlpp_handle *handle, const char *path, size_t path_length);

/*
 * Tells a handle that the source at `path` can't be opened, as rdlpp_give does: a search ends there, by
 * the fault RDLPP_FAULT_READ_FAILED.
 */
uint32_t rdlpp_give_failed(rdlpp_handle *handle, const char *path, size_t path_length);

/*
 * Tells the place of the first byte that the last read wrote: the shown name, in `name`, and the shown line
 * that a fault there would have. Of text that a macro's usage gave it is the place of the usage. It is
 * meant for a handle whose request has `pieces`, where all that a read wrote stands there.
 *
 * The answer has the status RDLPP_WHOLE, the line in `line`, and in `number` 1 where each LF byte of what
 * was read begins the next line of its source, and 0 where all of it stands at that one line;
 * RDLPP_MORE where there is no place, as before the first read, after the end and after a fault; and
 * RDLPP_CLOSED where the handle is closed.
 */
rdlpp_outcome rdlpp_position(rdlpp_handle *handle, char *name, size_t name_length);

/* How many bytes `map` of rdlpp_read_mapped must have at least. */
#define RDLPP_MAP_ROOM 1100

/* How rdlpp_read_mapped ended. */
typedef struct rdlpp_mapped {
    rdlpp_outcome outcome; /* as of rdlpp_read */
    size_t map_length;     /* how many bytes were written to `map` */
} rdlpp_mapped;

/*
 * Reads as rdlpp_read does, and writes the line map of what was read to `map`. All that the calls write
 * there, in order, are the lines of a line map file after its first line: OUT TAB LINE TAB STEP TAB NAME LF
 * says that line OUT of the output, from 1, has the place NAME:LINE, and that each line after it, up to
 * the next such line, has the line before it plus STEP, which is 1 or 0.
 *
 * A read also ends, by RDLPP_MORE, where fewer than RDLPP_MAP_ROOM bytes of `map` are left. The answer is
 * RDLPP_SHORT_MAP where `map` has fewer to begin with. An output is read by this call alone, or by
 * rdlpp_read alone.
 */
rdlpp_mapped rdlpp_read_mapped(
    rdlpp_handle *handle,
    char *out, size_t out_length,
    char *map, size_t map_length,
    char *name, size_t name_length,
    char *word, size_t word_length);

/*
 * Writes the live definitions to `out`, oldest first, as `define` lines which define the same when they
 * are read again, and answers their whole length. What no such line can give stands in a comment line.
 * The answer is 0 of a closed handle, and where memory was refused.
 */
size_t rdlpp_definitions(rdlpp_handle *handle, char *out, size_t out_length);

/*
 * Writes the notes of the fault that the last read told to `out`, in lines that end in LF, and answers their
 * whole length, which is 0 where the last read told none, of a closed handle, and where memory was refused.
 * They are those of the program's --notes, without the line that says where a macro was defined and without the system's
 * reason of a file that failed. Where rdlpp_give_once answered RDLPP_CHANGED, a note says that the text has changed.
 */
size_t rdlpp_notes(rdlpp_handle *handle, char *out, size_t out_length);

/* Closes a handle: what it owns is given back. A closed one stays closed. */
void rdlpp_close(rdlpp_handle *handle);

/*
 * Writes the text of the kind of fault with a number to `out`, as "undefined macro" for 7, and answers
 * its whole length, which is at most 64: 0 for a number that no kind of fault has. The text is the one
 * that the program reports.
 */
size_t rdlpp_fault_text(uint32_t number, char *out, size_t out_length);

/* Writes the version of the library to `out`, three numbers with dots between them, and answers the whole length. */
size_t rdlpp_version(char *out, size_t out_length);

#ifdef __cplusplus
}
#endif

#endif
