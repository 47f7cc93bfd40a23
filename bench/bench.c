/*
 * Times the archive's solver against the second program's, in one process, over
 * streams of problems (each after its length in four bytes, high byte first).
 *
 *   bench time ROUNDS FILE..     a line for each file: nanoseconds of one solve,
 *                                ours over lent tables, the second program's and
 *                                the ratio of the two; ours without lent tables;
 *                                and the same three of one judging
 *   bench ours REPEATS FILE      nothing but our solves, for a profiler
 *   bench second REPEATS FILE    the same of the second program's
 *   bench count FILE             how many problems the file holds
 *
 * Before anything is timed, both give the same number, place and answer on every
 * problem of the file, and both judges the same number and place, or the program
 * stops. Time is the process's own, and rounds alternate between the solvers, so
 * that what else the machine does meets all; the median of the rounds is told.
 */
#define _POSIX_C_SOURCE 200809L

#include <stdio.h>
#include <stdlib.h>
#include <string.h>
#include <time.h>

#include "cheesetrestle.h"

/* The second program's solver and judge, compiled without its main. */
int solve(const unsigned char *input, size_t length, unsigned char *output, size_t room, uint64_t *place);
int judge(const unsigned char *input, size_t length, uint64_t *place);

enum { MOST_PROBLEMS = 4096, MOST_ROUNDS = 101 };

static struct cheesetrestle_tables tables;
static uint8_t our_output[CHEESETRESTLE_ANSWER_ROOM];
static uint8_t second_output[CHEESETRESTLE_ANSWER_ROOM];
static volatile uint64_t kept;

static const uint8_t *problems[MOST_PROBLEMS];
static size_t lengths[MOST_PROBLEMS];
static size_t count;
static size_t total;

static void stop(const char *file, const char *what)
{
    fprintf(stderr, "bench: %s: %s\n", file, what);
    exit(1);
}

static void load(const char *name)
{
    static uint8_t *bytes;
    size_t room = 1 << 24, length, at = 0;
    FILE *file = fopen(name, "rb");

    if (bytes == NULL)
        bytes = malloc(room);
    if (file == NULL || bytes == NULL)
        stop(name, "cannot be loaded");
    length = fread(bytes, 1, room, file);
    fclose(file);
    count = 0;
    total = 0;
    while (length - at >= 4 && count < MOST_PROBLEMS) {
        size_t n = (size_t)bytes[at] << 24 | (size_t)bytes[at + 1] << 16 | (size_t)bytes[at + 2] << 8 | bytes[at + 3];

        at += 4;
        if (length - at < n)
            stop(name, "ends inside a problem");
        problems[count] = bytes + at;
        lengths[count] = n;
        total += n;
        at += n;
        count++;
    }
    if (count == 0 || at != length)
        stop(name, "is not a stream of problems, or holds too many");
}

static void ours(void)
{
    size_t i;

    for (i = 0; i < count; i++)
        kept = cheesetrestle_solve_lent(problems[i], lengths[i], our_output, sizeof our_output, &tables);
}

static void plain(void)
{
    size_t i;

    for (i = 0; i < count; i++)
        kept = cheesetrestle_solve(problems[i], lengths[i], our_output, sizeof our_output);
}

static void seconds(void)
{
    uint64_t place;
    size_t i;

    for (i = 0; i < count; i++)
        kept = (uint64_t)solve(problems[i], lengths[i], second_output, sizeof second_output, &place);
}

static void our_judge(void)
{
    size_t i;

    for (i = 0; i < count; i++)
        kept = cheesetrestle_judge_lent(problems[i], lengths[i], &tables);
}

static void second_judge(void)
{
    uint64_t place;
    size_t i;

    for (i = 0; i < count; i++)
        kept = (uint64_t)judge(problems[i], lengths[i], &place);
}

/* Stops unless what ours gave is the second program's number and place. */
static void same(const char *name, size_t i, const char *who, uint64_t given, int number, uint64_t place)
{
    if (cheesetrestle_number(given) == (uint32_t)number && cheesetrestle_place(given) == place
        && memcmp(our_output, second_output, sizeof our_output) == 0)
        return;
    fprintf(stderr, "bench: %s, problem %lu, %s: ours %lu %lu, the second program's %d %lu, or other output\n", name, (unsigned long)i,
            who, (unsigned long)cheesetrestle_number(given), (unsigned long)cheesetrestle_place(given), number,
            (unsigned long)place);
    exit(1);
}

static void agree(const char *name)
{
    size_t i;

    for (i = 0; i < count; i++) {
        uint64_t place = 0;
        int number;

        memset(&tables, 0xA5, sizeof tables);
        memset(our_output, 0x5A, sizeof our_output);
        memset(second_output, 0x5A, sizeof second_output);
        number = solve(problems[i], lengths[i], second_output, sizeof second_output, &place);
        same(name, i, "solver over lent tables",
             cheesetrestle_solve_lent(problems[i], lengths[i], our_output, sizeof our_output, &tables), number, place);
        memset(our_output, 0x5A, sizeof our_output);
        same(name, i, "solver", cheesetrestle_solve(problems[i], lengths[i], our_output, sizeof our_output), number, place);
        place = 0;
        number = judge(problems[i], lengths[i], &place);
        same(name, i, "judge over lent tables", cheesetrestle_judge_lent(problems[i], lengths[i], &tables), number, place);
        same(name, i, "judge", cheesetrestle_judge(problems[i], lengths[i]), number, place);
    }
}

static double timed(void (*all)(void), unsigned long repeats)
{
    struct timespec before, after;
    unsigned long i;

    clock_gettime(CLOCK_PROCESS_CPUTIME_ID, &before);
    for (i = 0; i < repeats; i++)
        all();
    clock_gettime(CLOCK_PROCESS_CPUTIME_ID, &after);
    return (double)(after.tv_sec - before.tv_sec) * 1e9 + (double)(after.tv_nsec - before.tv_nsec);
}

static int by_size(const void *a, const void *b)
{
    double x = *(const double *)a, y = *(const double *)b;

    return (x > y) - (x < y);
}

static double median(double *values, int n)
{
    qsort(values, (size_t)n, sizeof *values, by_size);
    return n % 2 ? values[n / 2] : (values[n / 2 - 1] + values[n / 2]) / 2;
}

/* How often all problems are solved in one round: about 10 ms. */
static unsigned long repeats_for(void (*all)(void))
{
    unsigned long repeats = 1;

    while (timed(all, repeats) < 1e7)
        repeats *= 2;
    return repeats;
}

static void compare(const char *name, int rounds)
{
    static void (*const solvers[5])(void) = {ours, seconds, plain, our_judge, second_judge};
    double times[5][MOST_ROUNDS], ratio[MOST_ROUNDS], judging[MOST_ROUNDS], middle[5];
    unsigned long repeats[5];
    const char *base = strrchr(name, '/');
    int i, k;

    load(name);
    agree(name);
    for (k = 0; k < 5; k++)
        repeats[k] = repeats_for(solvers[k]);
    for (i = 0; i < rounds; i++) {
        for (k = 0; k < 5; k++)
            times[k][i] = timed(solvers[k], repeats[k]) / (double)repeats[k] / (double)count;
        ratio[i] = times[0][i] / times[1][i];
        judging[i] = times[3][i] / times[4][i];
    }
    for (k = 0; k < 5; k++)
        middle[k] = median(times[k], rounds);
    printf("%-28s %5lu %7lu %10.1f %10.1f %7.2f %10.1f %10.1f %10.1f %7.2f\n", base ? base + 1 : name, (unsigned long)count,
           (unsigned long)(total / count), middle[0], middle[1], median(ratio, rounds), middle[2], middle[3], middle[4],
           median(judging, rounds));
    fflush(stdout);
}

int main(int n, char **words)
{
    int i;

    if (n >= 4 && strcmp(words[1], "time") == 0) {
        int rounds = atoi(words[2]);

        if (rounds < 1 || rounds > MOST_ROUNDS)
            stop(words[2], "not a number of rounds from 1 to 101");
        printf("%-28s %5s %7s %10s %10s %7s %10s %10s %10s %7s\n", "stream", "count", "bytes", "ours ns", "second ns", "ratio",
               "plain ns", "judge ns", "second ns", "ratio");
        for (i = 3; i < n; i++)
            compare(words[i], rounds);
        return 0;
    }
    if (n == 4 && (strcmp(words[1], "ours") == 0 || strcmp(words[1], "second") == 0)) {
        long repeats = atol(words[2]);

        load(words[3]);
        while (repeats-- > 0) {
            if (words[1][0] == 'o')
                ours();
            else
                seconds();
        }
        return 0;
    }
    if (n == 3 && strcmp(words[1], "count") == 0) {
        load(words[2]);
        printf("%lu\n", (unsigned long)count);
        return 0;
    }
    fputs("usage: bench time ROUNDS FILE.. | ours REPEATS FILE | second REPEATS FILE | count FILE\n", stderr);
    return 2;
}
