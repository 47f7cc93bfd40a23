/*
 * A problem built, solved and judged from C: the whole example of
 * examples/whole.hex, [a]X against [b]b, where a is atom 0, b is atom 1 and X is
 * variable 0. Then [a]a against [b]b, where the judge says that it holds, problems
 * that are refused, and one that its room is too small for.
 *
 *   (cd crates/cheesetrestle && rt lib)
 *   cc -Iinclude -o crates/cheesetrestle/out/solve-c examples/solve.c crates/cheesetrestle/out/libcheesetrestle.a
 *   crates/cheesetrestle/out/solve-c
 *
 * Or, once tools/install has installed it:
 *
 *   cc -o solve-c examples/solve.c $(pkg-config --cflags --libs cheesetrestle)
 */
#include <stdio.h>

#include "cheesetrestle.h"

static uint8_t bytes[256];

/* [a]s against [b]b; s is X or a. */
static struct cheesetrestle_problem binders(int with_variable, size_t room)
{
    struct cheesetrestle_problem problem;
    unsigned s, b, left, right;

    cheesetrestle_problem_begin(&problem, bytes, room, 2, with_variable ? 1 : 0, 100);
    s = with_variable ? cheesetrestle_add_suspension(&problem, 0, NULL, 0) : cheesetrestle_add_atom(&problem, 0);
    left = cheesetrestle_add_abstraction(&problem, 0, s);
    b = cheesetrestle_add_atom(&problem, 1);
    right = cheesetrestle_add_abstraction(&problem, 1, b);
    cheesetrestle_add_equation(&problem, left, right);
    return problem;
}

/* (a b)X against X, then a against a and a against the symbol 7 on a. */
static struct cheesetrestle_problem clash(void)
{
    static const uint8_t swap[] = {0, 1};
    struct cheesetrestle_problem problem;
    unsigned x, swapped, a, applied;

    cheesetrestle_problem_begin(&problem, bytes, sizeof bytes, 2, 1, 100);
    x = cheesetrestle_add_suspension(&problem, 0, NULL, 0);
    swapped = cheesetrestle_add_suspension(&problem, 0, swap, 1);
    a = cheesetrestle_add_atom(&problem, 0);
    applied = cheesetrestle_add_application(&problem, 7, a);
    cheesetrestle_add_equation(&problem, swapped, x);
    cheesetrestle_add_equation(&problem, a, a);
    cheesetrestle_add_equation(&problem, a, applied);
    return problem;
}

/* The pair of X and Y against that of Y and (a b)Y, Y protected, b assumed fresh for Y; and a fresh for the pair. */
static struct cheesetrestle_problem facts(void)
{
    static const uint8_t swap[] = {0, 1};
    struct cheesetrestle_problem problem;
    unsigned x, y, swapped, left, right;

    cheesetrestle_problem_begin(&problem, bytes, sizeof bytes, 2, 2, 100);
    x = cheesetrestle_add_suspension(&problem, 0, NULL, 0);
    y = cheesetrestle_add_suspension(&problem, 1, NULL, 0);
    swapped = cheesetrestle_add_suspension(&problem, 1, swap, 1);
    left = cheesetrestle_add_pair(&problem, x, y);
    right = cheesetrestle_add_pair(&problem, y, swapped);
    cheesetrestle_add_equation(&problem, left, right);
    cheesetrestle_add_freshness(&problem, 0, left);
    cheesetrestle_add_assumption(&problem, 1, 1);
    cheesetrestle_add_protected(&problem, 1);
    return problem;
}

static void print_answer(const uint8_t *answer_bytes, size_t length)
{
    struct cheesetrestle_answer answer;
    struct cheesetrestle_field field;
    unsigned i;

    cheesetrestle_answer_begin(&answer, answer_bytes, length);
    while (cheesetrestle_answer_next(&answer, &field)) {
        switch (field.tag) {
        case CHEESETRESTLE_STEPS:
            printf("  steps %lu\n", (unsigned long)field.steps);
            break;
        case CHEESETRESTLE_BINDING:
            printf("  variable %u is node %u, its atoms becoming", field.variable, field.node);
            for (i = 0; i < field.atoms; i++)
                printf(" %u", field.images[i]);
            printf("\n");
            break;
        case CHEESETRESTLE_FACT:
            printf("  on condition that atom %u is fresh for variable %u\n", field.atom, field.variable);
            break;
        }
    }
}

static void print_given(const char *who, uint64_t given)
{
    unsigned number = cheesetrestle_number(given), place = cheesetrestle_place(given);

    printf("  %s: %u at %u, %s\n", who, number, place, cheesetrestle_message(number));
}

/* Solves and judges a problem with lent tables; `room` is the output's. */
static void tell(const char *name, struct cheesetrestle_problem problem, size_t room)
{
    static struct cheesetrestle_tables tables;
    static uint8_t output[CHEESETRESTLE_ANSWER_ROOM];
    unsigned fault = cheesetrestle_problem_fault(&problem);
    uint64_t solved;

    printf("%s, %lu bytes\n", name, (unsigned long)problem.length);
    if (fault != 0) {
        printf("  not built: %s\n", cheesetrestle_message(fault));
        return;
    }
    solved = cheesetrestle_solve_lent(problem.bytes, problem.length, output, room, &tables);
    print_given("solver", solved);
    if (cheesetrestle_number(solved) == CHEESETRESTLE_ACCEPTED)
        print_answer(output, cheesetrestle_place(solved));
    print_given("judge", cheesetrestle_judge_lent(problem.bytes, problem.length, &tables));
}

int main(void)
{
    if (cheesetrestle_version() != CHEESETRESTLE_VERSION_NUMBER) {
        printf("the archive is not of the header's version, " CHEESETRESTLE_VERSION "\n");
        return 1;
    }
    tell("whole example", binders(1, sizeof bytes), CHEESETRESTLE_ANSWER_ROOM);
    tell("renamed binder", binders(0, sizeof bytes), CHEESETRESTLE_ANSWER_ROOM);
    tell("clash in equation 2", clash(), CHEESETRESTLE_ANSWER_ROOM);
    tell("facts", facts(), CHEESETRESTLE_ANSWER_ROOM);
    tell("too little room for the answer", binders(1, sizeof bytes), 3);
    tell("too little room for the problem", binders(1, 35), CHEESETRESTLE_ANSWER_ROOM);
    return 0;
}
