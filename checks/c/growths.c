/* Loaded in front of the C library: counts the blocks that a program asks for, and refuses some of them.
   GROWTHS names a file of three 64-bit numbers, which are kept up to date: how many growths were asked for, how
   many were refused, and how many blocks are out. REFUSED is the first growth that is refused and the last one. */
#define _GNU_SOURCE
#include <dlfcn.h>
#include <errno.h>
#include <fcntl.h>
#include <stdint.h>
#include <stdio.h>
#include <stdlib.h>
#include <sys/mman.h>
#include <unistd.h>

struct counts {
    uint64_t asked;
    uint64_t refused;
    uint64_t out;
};

static struct counts unread;
static struct counts *counts = &unread;
static unsigned long first, last;

static void *(*next_malloc)(size_t);
static void *(*next_calloc)(size_t, size_t);
static void *(*next_realloc)(void *, size_t);
static void (*next_free)(void *);

static void find_next(void)
{
    *(void **)&next_malloc = dlsym(RTLD_NEXT, "malloc");
    *(void **)&next_calloc = dlsym(RTLD_NEXT, "calloc");
    *(void **)&next_realloc = dlsym(RTLD_NEXT, "realloc");
    *(void **)&next_free = dlsym(RTLD_NEXT, "free");
}

__attribute__((constructor)) static void begin(void)
{
    const char *path = getenv("GROWTHS");
    const char *range = getenv("REFUSED");
    int file = path != NULL ? open(path, O_RDWR) : -1;
    if (next_malloc == NULL) {
        find_next();
    }
    if (file < 0 || range == NULL || sscanf(range, "%lu %lu", &first, &last) != 2) {
        _exit(99);
    }
    counts = mmap(NULL, sizeof *counts, PROT_READ | PROT_WRITE, MAP_SHARED, file, 0);
    close(file);
    if (counts == MAP_FAILED) {
        _exit(99);
    }
    counts->asked = counts->refused = counts->out = 0;
}

/* Counts a growth, and tells whether it is refused. */
static int is_refused(void)
{
    if (next_malloc == NULL) {
        find_next();
    }
    counts->asked += 1;
    if (counts->asked < first || last < counts->asked) {
        return 0;
    }
    counts->refused += 1;
    errno = ENOMEM;
    return 1;
}

void *malloc(size_t size)
{
    void *block = is_refused() ? NULL : next_malloc(size);
    counts->out += block != NULL;
    return block;
}

void *calloc(size_t count, size_t size)
{
    void *block = is_refused() ? NULL : next_calloc(count, size);
    counts->out += block != NULL;
    return block;
}

void *realloc(void *old, size_t size)
{
    void *block = is_refused() ? NULL : next_realloc(old, size);
    counts->out += old == NULL && block != NULL;
    return block;
}

void free(void *block)
{
    counts->out -= block != NULL;
    next_free(block);
}
