/* What all tools need: the time, random numbers, sorted figures, and giving up. */
#ifndef BASICS_H
#define BASICS_H
#include <errno.h>
#include <stdbool.h>
#include <stdint.h>
#include <stdio.h>
#include <stdlib.h>
#include <string.h>
#include <time.h>

enum { NANOS_PER_SECOND = 1000000000 };

/* Ends the program with a line that says why. */
static inline void give_up(const char *what)
{
    fprintf(stderr, "%s%s%s\n", what, errno ? ": " : "", errno ? strerror(errno) : "");
    exit(1);
}

/* The time in nanoseconds. */
static inline uint64_t nanos_now(void)
{
    struct timespec time;
    clock_gettime(CLOCK_MONOTONIC, &time);
    return (uint64_t)time.tv_sec * NANOS_PER_SECOND + (uint64_t)time.tv_nsec;
}

/* `count` zeroed items of `size` bytes. */
static inline void *zeroed(size_t count, size_t size)
{
    void *items = calloc(count, size);
    if (!items) give_up("out of memory");
    return items;
}

/* A random number below `limit`, which is at most 2^32. A multiplicative generator suffices: the numbers only spread the work. */
static inline uint32_t random_below(uint64_t *state, uint64_t limit)
{
    *state = *state * 6364136223846793005u + 1442695040888963407u;
    return (uint32_t)((*state >> 32) * limit >> 32);
}

static inline int compare_figures(const void *left, const void *right)
{
    uint64_t a = *(const uint64_t *)left, b = *(const uint64_t *)right;
    return (a > b) - (a < b);
}

static inline void sort_figures(uint64_t *figures, size_t count)
{
    qsort(figures, count, sizeof *figures, compare_figures);
}

/* The figure below which this part, in thousandths, of the sorted figures is. */
static inline uint64_t figure_at(const uint64_t *sorted, size_t count, size_t thousandth)
{
    return count ? sorted[(count - 1) * thousandth / 1000] : 0;
}
#endif
