/*
 * Memory whose first byte stands right behind, and whose last byte stands right
 * before, memory that must not be touched: who reads or writes one byte too far
 * ends with a fault. And a stream of problems on standard input.
 */
#ifndef GUARDED_H
#define GUARDED_H

#include <stdint.h>
#include <stdio.h>
#include <stdlib.h>
#include <sys/mman.h>

/* No processor's page is larger. */
enum { GUARD = 65536 };

static void stop(const char *what)
{
    fflush(stdout);
    fprintf(stderr, "%s\n", what);
    exit(1);
}

struct guarded {
    uint8_t *first, *end;
};

static struct guarded guarded(size_t size)
{
    size_t within = (size + GUARD - 1) / GUARD * GUARD;
    uint8_t *all = mmap(NULL, within + 2 * GUARD, PROT_READ | PROT_WRITE, MAP_PRIVATE | MAP_ANONYMOUS, -1, 0);
    struct guarded made;

    if (all == MAP_FAILED || mprotect(all, GUARD, PROT_NONE) != 0 || mprotect(all + GUARD + within, GUARD, PROT_NONE) != 0)
        stop("no guarded memory is to be had");
    made.first = all + GUARD;
    made.end = made.first + within;
    return made;
}

/* The next problem of the stream, and its length; NULL at the end. */
static const uint8_t *next_problem(size_t *length)
{
    static uint8_t *bytes;
    uint8_t head[4];
    size_t got = fread(head, 1, 4, stdin);

    if (got == 0)
        return NULL;
    *length = (size_t)head[0] << 24 | (size_t)head[1] << 16 | (size_t)head[2] << 8 | head[3];
    free(bytes);
    bytes = malloc(*length + 1);
    if (bytes == NULL || got != 4 || fread(bytes, 1, *length, stdin) != *length)
        stop("the stream is cut short, or a problem does not fit the memory");
    return bytes;
}

#endif
