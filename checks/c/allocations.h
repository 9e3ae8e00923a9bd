/* Counts what is asked of malloc and realloc, and refuses it. A program that includes this is linked with
   -Wl,--wrap for malloc, realloc and free. */
#include <stdlib.h>

/* How many more allocations are granted, all where it is negative; how many blocks are out; how many were asked for, and how
   many bytes. */
static long granted = -1;
static long blocks = 0;
static size_t asked_blocks = 0;
static size_t asked_bytes = 0;

static int is_refused(size_t size)
{
    asked_blocks += 1;
    asked_bytes += size;
    if (granted == 0) {
        return 1;
    }
    granted -= granted > 0;
    return 0;
}

void *__real_malloc(size_t size);
void *__real_realloc(void *block, size_t size);
void __real_free(void *block);
void *__wrap_malloc(size_t size);
void *__wrap_realloc(void *block, size_t size);
void __wrap_free(void *block);

void *__wrap_malloc(size_t size)
{
    void *block = is_refused(size) ? NULL : __real_malloc(size);
    blocks += block != NULL;
    return block;
}

void *__wrap_realloc(void *block, size_t size)
{
    return is_refused(size) ? NULL : __real_realloc(block, size);
}

void __wrap_free(void *block)
{
    blocks -= block != NULL;
    __real_free(block);
}
