/* Calls of the library over sources in memory: the works of bench/compare that open many sources.
 *
 *     memory WORK RUNS [FILE..]
 *
 * WORK is the path of the main text. Each FILE is read once, before any call, and is a source under its own
 * name. Prints the least and the mean time of a call, in nanoseconds, and the length of the output. */
#include "rdlpp.h"

#include <stdio.h>
#include <stdlib.h>
#include <string.h>
#include <time.h>

#define OUT_ROOM (1 << 20)

/* The bytes of a file, or the end of the program. */
static rdlpp_text text_of(const char *path)
{
    FILE *file = fopen(path, "rb");
    if (file == NULL || fseek(file, 0, SEEK_END) != 0) {
        perror(path);
        exit(2);
    }
    size_t length = (size_t)ftell(file);
    char *bytes = malloc(length + 1);
    rewind(file);
    if (bytes == NULL || fread(bytes, 1, length, file) != length) {
        perror(path);
        exit(2);
    }
    fclose(file);
    rdlpp_text text = {path, strlen(path), bytes, length};
    return text;
}

static double nanoseconds(void)
{
    struct timespec now;
    clock_gettime(CLOCK_MONOTONIC, &now);
    return 1e9 * (double)now.tv_sec + (double)now.tv_nsec;
}

int main(int count, char **words)
{
    if (count < 4) {
        fprintf(stderr, "usage: memory WORK RUNS FILE..\n");
        return 2;
    }
    const size_t texts_length = (size_t)count - 3;
    const long runs = strtol(words[2], NULL, 10);
    rdlpp_text *texts = malloc(texts_length * sizeof *texts);
    char *out = malloc(OUT_ROOM);
    char name[1024], word[128];
    if (texts == NULL || out == NULL || runs < 1) {
        return 2;
    }
    for (size_t at = 0; at < texts_length; at += 1) {
        texts[at] = text_of(words[at + 3]);
    }
    rdlpp_request request = rdlpp_standard_request();
    request.limits.includes = 64;
    request.texts = texts;
    request.texts_length = texts_length;
    request.path = words[1];
    request.path_length = strlen(words[1]);
    double least = 1e18, all = 0;
    uint64_t length = 0;
    for (long run = 0; run < runs; run += 1) {
        const double began = nanoseconds();
        const rdlpp_outcome outcome = rdlpp_preprocess(&request, out, OUT_ROOM, name, sizeof name, word, sizeof word);
        const double spent = nanoseconds() - began;
        if (outcome.status != RDLPP_WHOLE) {
            fprintf(stderr, "status %u, fault %u\n", outcome.status, outcome.number);
            return 1;
        }
        least = spent < least ? spent : least;
        all += spent;
        length = outcome.length;
    }
    printf("%.0f %.0f %llu\n", least, all / (double)runs, (unsigned long long)length);
    for (size_t at = 0; at < texts_length; at += 1) {
        free((char *)texts[at].text);
    }
    free(out);
    free(texts);
    return 0;
}
