/* What a program of this folder checks: each thing that isn't so is told on standard error, and counted. */
#ifndef CHECKING_H
#define CHECKING_H

#include <stdio.h>

static int failures = 0;

/* Tells what isn't so. */
static inline void check(int holds, const char *what)
{
    if (!holds) {
        fprintf(stderr, "not so: %s\n", what);
        failures += 1;
    }
}

/* Tells what isn't so, and of what. */
static inline void check_of(int holds, const char *shows, const char *what)
{
    if (!holds) {
        fprintf(stderr, "%s: ", shows);
    }
    check(holds, what);
}

#endif
