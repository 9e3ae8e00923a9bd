/* A row of crates/rdlpp_rows/data as a value, and all of them. */
#ifndef ROW_H
#define ROW_H

#include "rdlpp.h"

/* A row: what a call asks for, the output that it must give, and the fault that must end it, of number 0 where none
   does. */
struct row {
    const char *shows;
    rdlpp_limits limits;
    bool origins;
    const rdlpp_text *texts;
    size_t texts_length;
    const rdlpp_folder *folders;
    size_t folders_length;
    const rdlpp_definition *definitions;
    size_t definitions_length;
    const char *output;
    size_t output_length;
    uint32_t number;
    uint64_t line;
    const char *name;
    size_t name_length;
    const char *word;
    size_t word_length;
};

#include "rows.inc"

/* What a call of the row asks for. */
static rdlpp_request asked(const struct row *row)
{
    rdlpp_request request = rdlpp_standard_request();
    request.limits = row->limits;
    request.origins = row->origins;
    request.texts = row->texts;
    request.texts_length = row->texts_length;
    request.folders = row->folders;
    request.folders_length = row->folders_length;
    request.definitions = row->definitions;
    request.definitions_length = row->definitions_length;
    request.path = row->texts[0].path;
    request.path_length = row->texts[0].path_length;
    return request;
}

#endif
