/*
 * Cheesetrestle for C: the solver and the judge of libcheesetrestle.a, which
 * `rt lib` in crates/cheesetrestle/ proves and writes to out/ there (x86-64).
 * C99, and C++ as well.
 *
 * Each entry is proved to give the definition's number and place, and to leave
 * the output as the definition does, on every input, every output and whatever
 * the tables hold (docs/PROVED.md). None asks for memory, keeps state or touches
 * anything but what is lent.
 *
 * What C has to see to:
 *
 *   pointers   One with a length leads to that many bytes; with length 0 it may
 *              be null. No other is null.
 *   overlap    What is lent for writing (the output, each table) overlaps
 *              nothing else that is lent to the same call.
 *   alignment  A table is aligned as its element type is; bytes stand anywhere.
 *   threads    Any number of calls may run at once, as long as none is lent for
 *              writing what another one is lent. A signal handler may call too.
 *   stack      CHEESETRESTLE_STACK or CHEESETRESTLE_STACK_LENT, below.
 */
#ifndef CHEESETRESTLE_H
#define CHEESETRESTLE_H

#include <stddef.h>
#include <stdint.h>

#include "cheesetrestle_answer.h"
#include "cheesetrestle_numbers.h"
#include "cheesetrestle_problem.h"

#ifdef __cplusplus
extern "C" {
#endif

/* The header's version. */
#define CHEESETRESTLE_VERSION "0.1.0"
#define CHEESETRESTLE_VERSION_MAJOR 0
#define CHEESETRESTLE_VERSION_MINOR 1
#define CHEESETRESTLE_VERSION_PATCH 0
#define CHEESETRESTLE_VERSION_NUMBER \
    (10000 * CHEESETRESTLE_VERSION_MAJOR + 100 * CHEESETRESTLE_VERSION_MINOR + CHEESETRESTLE_VERSION_PATCH)

/* The archive's version: CHEESETRESTLE_VERSION_NUMBER, if the two belong together. */
uint32_t cheesetrestle_version(void);

/* No answer is longer: an output of this size is never too short. */
#define CHEESETRESTLE_ANSWER_ROOM 16384

/* The stack that a call takes, with a tenth or more to spare: cheesetrestle_solve
 * and cheesetrestle_judge, whose tables are on it, and the four over lent tables.
 * It was measured, on stacks that had been filled before and on the deepest
 * problems that can be built; README.md has what each entry took. One function of
 * the archive calls itself, at most 256 deep and 64 bytes each time; nothing else
 * grows with the problem. What a signal handler takes comes on top. */
#define CHEESETRESTLE_STACK 114688
#define CHEESETRESTLE_STACK_LENT 20480

/* What the solver and the judge work in: the first bytes of the input's fields, its
 * assumptions, the variables in each node, the equations that wait, the bindings
 * made, the demands, and the marks of resolving them. The content does not matter,
 * neither before nor after a call; one call at a time may use it. */
struct cheesetrestle_tables {
    uint64_t places[640];
    uint32_t assumed[64];
    uint64_t node_variables[512];
    uint16_t heads[576][3];
    uint8_t images[576][2][32];
    uint16_t made[3][64];
    uint8_t values[64][32];
    uint32_t asked[2][512];
    uint8_t firsts[576][32];
    uint32_t marks[2][512];
};

/* The archive takes each table to have this many bytes: where one has not, this
 * does not compile. */
#define CHEESETRESTLE_TAKES(table, bytes) \
    typedef char cheesetrestle_takes_##table[sizeof ((struct cheesetrestle_tables *)0)->table == (bytes) ? 1 : -1]
CHEESETRESTLE_TAKES(places, 5120);
CHEESETRESTLE_TAKES(assumed, 256);
CHEESETRESTLE_TAKES(node_variables, 4096);
CHEESETRESTLE_TAKES(heads, 3456);
CHEESETRESTLE_TAKES(images, 36864);
CHEESETRESTLE_TAKES(made, 384);
CHEESETRESTLE_TAKES(values, 2048);
CHEESETRESTLE_TAKES(asked, 4096);
CHEESETRESTLE_TAKES(firsts, 18432);
CHEESETRESTLE_TAKES(marks, 4096);
#undef CHEESETRESTLE_TAKES
typedef char cheesetrestle_tables_take[sizeof(struct cheesetrestle_tables) == 78848 ? 1 : -1];

/* What every entry gives back is one word: one of the numbers of
 * cheesetrestle_numbers.h in its high half, a place in its low half. */
static inline uint32_t cheesetrestle_number(uint64_t given) { return (uint32_t)(given >> 32); }
static inline uint32_t cheesetrestle_place(uint64_t given) { return (uint32_t)(given & 0xFFFFFFFFu); }

/* The solver. With CHEESETRESTLE_ACCEPTED the output starts with the answer and
 * its other bytes are as they were; with any other number all of it is as it
 * was. Its tables are on the stack and cleared at each call: who solves often
 * lends them. */
uint64_t cheesetrestle_solve(const uint8_t *input, size_t input_length, uint8_t *output, size_t output_length);

/* The judge: whether the problem's equations and freshness fields follow from
 * its assumptions. It writes nothing. */
uint64_t cheesetrestle_judge(const uint8_t *input, size_t input_length);

/* The archive's entries over lent tables, each table for itself; the two
 * functions below take them as one struct. */
uint64_t cheesetrestle_solve_with(
    const uint8_t *input, size_t input_length, uint8_t *output, size_t output_length,
    uint64_t places[640], uint32_t assumed[64], uint64_t node_variables[512],
    uint16_t heads[576][3], uint8_t images[576][2][32], uint16_t made[3][64],
    uint8_t values[64][32], uint32_t asked[2][512], uint8_t firsts[576][32],
    uint32_t marks[2][512]);

uint64_t cheesetrestle_judge_with(
    const uint8_t *input, size_t input_length,
    uint64_t places[640], uint32_t assumed[64], uint64_t node_variables[512],
    uint16_t heads[576][3], uint8_t images[576][2][32], uint16_t made[3][64],
    uint8_t values[64][32], uint32_t asked[2][512], uint8_t firsts[576][32],
    uint32_t marks[2][512]);

/* The solver over lent tables: what cheesetrestle_solve gives, without clearing. */
static inline uint64_t cheesetrestle_solve_lent(
    const uint8_t *input, size_t input_length, uint8_t *output, size_t output_length,
    struct cheesetrestle_tables *t)
{
    return cheesetrestle_solve_with(
        input, input_length, output, output_length, t->places, t->assumed, t->node_variables,
        t->heads, t->images, t->made, t->values, t->asked, t->firsts, t->marks);
}

/* The judge over lent tables: what cheesetrestle_judge gives, without clearing. */
static inline uint64_t cheesetrestle_judge_lent(
    const uint8_t *input, size_t input_length, struct cheesetrestle_tables *t)
{
    return cheesetrestle_judge_with(
        input, input_length, t->places, t->assumed, t->node_variables, t->heads, t->images,
        t->made, t->values, t->asked, t->firsts, t->marks);
}

#ifdef __cplusplus
}
#endif

#endif
