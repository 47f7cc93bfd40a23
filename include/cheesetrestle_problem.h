/*
 * A problem, built field by field into bytes that are lent for it. Included by
 * cheesetrestle.h.
 *
 *   struct cheesetrestle_problem problem;
 *   unsigned x, y;
 *
 *   cheesetrestle_problem_begin(&problem, bytes, sizeof bytes, 2, 1, 100);
 *   x = cheesetrestle_add_suspension(&problem, 0, NULL, 0);
 *   y = cheesetrestle_add_atom(&problem, 1);
 *   cheesetrestle_add_equation(&problem, x, y);
 *   if (cheesetrestle_problem_fault(&problem) == 0)
 *       given = cheesetrestle_judge(bytes, problem.length);
 *
 * What is added after a fault changes nothing, so one test at the end is enough.
 */
#ifndef CHEESETRESTLE_PROBLEM_H
#define CHEESETRESTLE_PROBLEM_H

#include <stddef.h>
#include <stdint.h>

#include "cheesetrestle_numbers.h"

#ifdef __cplusplus
extern "C" {
#endif

/* No problem is longer. */
#define CHEESETRESTLE_PROBLEM_ROOM 65535

/* Given for a node that could not be added. */
#define CHEESETRESTLE_NO_NODE 512u

/* A problem, and how far it is built. */
struct cheesetrestle_problem {
    uint8_t *bytes;
    size_t room;
    size_t length; /* what its fields take, also where the room is less */
    unsigned atoms, variables, nodes, equations, freshness;
    unsigned fault;
};

/* 0 if the problem stands whole in its room and the solver will read it; or the
 * number with which the solver would refuse the first field that was not added;
 * or CHEESETRESTLE_NO_ROOM, and then length is the room that it wants. */
static inline unsigned cheesetrestle_problem_fault(const struct cheesetrestle_problem *problem)
{
    if (problem->fault == 0 && problem->length > problem->room)
        return CHEESETRESTLE_NO_ROOM;
    return problem->fault;
}

/* Inside: a byte more. */
static inline void cheesetrestle_put(struct cheesetrestle_problem *problem, unsigned byte)
{
    if (problem->length < problem->room)
        problem->bytes[problem->length] = (uint8_t)(byte & 0xFF);
    problem->length++;
}

/* Inside: two bytes more, the high one first. */
static inline void cheesetrestle_put_two(struct cheesetrestle_problem *problem, unsigned number)
{
    cheesetrestle_put(problem, number >> 8);
    cheesetrestle_put(problem, number);
}

/* Inside: a fault is kept, unless there was one before. */
static inline void cheesetrestle_keep(struct cheesetrestle_problem *problem, int bad, unsigned fault)
{
    if (bad && problem->fault == 0)
        problem->fault = fault;
}

/* Inside: starts a field, unless it has a fault or something had one before; gives 1
 * if it did. That there is no room for it comes before a fault of its own, as the
 * solver looks at the whole length first. */
static inline int cheesetrestle_field_begin(struct cheesetrestle_problem *problem, unsigned tag, unsigned size, unsigned fault)
{
    cheesetrestle_keep(problem, problem->length + 3 + size > CHEESETRESTLE_PROBLEM_ROOM, CHEESETRESTLE_TOO_LONG);
    cheesetrestle_keep(problem, fault != 0, fault);
    if (problem->fault != 0)
        return 0;
    cheesetrestle_put(problem, tag);
    cheesetrestle_put_two(problem, size);
    return 1;
}

/* Inside: the fault of a field of the right length, 0 if it has none: there may be no
 * more of its kind, or a name of it is not there. */
static inline unsigned cheesetrestle_fault_of(int full, int there)
{
    return full ? CHEESETRESTLE_TOO_MANY : there ? 0 : CHEESETRESTLE_NOT_THERE;
}

/* Inside: starts a node's field; gives 1 if it did. */
static inline int cheesetrestle_node_begin(struct cheesetrestle_problem *problem, unsigned tag, unsigned size, int there)
{
    return cheesetrestle_field_begin(problem, tag, size, cheesetrestle_fault_of(problem->nodes >= 512, there));
}

/* Starts a problem: how many atoms (at most 32) and variables (at most 64) it has,
 * and after how many steps the solver gives up. With room 0 the bytes may be null. */
static inline void cheesetrestle_problem_begin(
    struct cheesetrestle_problem *problem, uint8_t *bytes, size_t room, unsigned atoms, unsigned variables, uint32_t limit)
{
    problem->bytes = bytes;
    problem->room = room;
    problem->length = 0;
    problem->atoms = atoms;
    problem->variables = variables;
    problem->nodes = problem->equations = problem->freshness = 0;
    problem->fault = 0;
    if (!cheesetrestle_field_begin(problem, 0x01, 6, atoms > 32 || variables > 64 ? CHEESETRESTLE_NO_HEAD : 0))
        return;
    cheesetrestle_put(problem, atoms);
    cheesetrestle_put(problem, variables);
    cheesetrestle_put_two(problem, (unsigned)(limit >> 16));
    cheesetrestle_put_two(problem, (unsigned)(limit & 0xFFFF));
}

/* Nodes: each gives back its number, by which later fields name it. */

static inline unsigned cheesetrestle_add_unit(struct cheesetrestle_problem *problem)
{
    if (!cheesetrestle_node_begin(problem, 0x10, 0, 1))
        return CHEESETRESTLE_NO_NODE;
    return problem->nodes++;
}

static inline unsigned cheesetrestle_add_atom(struct cheesetrestle_problem *problem, unsigned atom)
{
    if (!cheesetrestle_node_begin(problem, 0x11, 1, atom < problem->atoms))
        return CHEESETRESTLE_NO_NODE;
    cheesetrestle_put(problem, atom);
    return problem->nodes++;
}

/* The atom is bound in the node. */
static inline unsigned cheesetrestle_add_abstraction(struct cheesetrestle_problem *problem, unsigned atom, unsigned node)
{
    if (!cheesetrestle_node_begin(problem, 0x12, 3, atom < problem->atoms && node < problem->nodes))
        return CHEESETRESTLE_NO_NODE;
    cheesetrestle_put(problem, atom);
    cheesetrestle_put_two(problem, node);
    return problem->nodes++;
}

static inline unsigned cheesetrestle_add_pair(struct cheesetrestle_problem *problem, unsigned left, unsigned right)
{
    if (!cheesetrestle_node_begin(problem, 0x13, 4, left < problem->nodes && right < problem->nodes))
        return CHEESETRESTLE_NO_NODE;
    cheesetrestle_put_two(problem, left);
    cheesetrestle_put_two(problem, right);
    return problem->nodes++;
}

static inline unsigned cheesetrestle_add_application(struct cheesetrestle_problem *problem, uint16_t symbol, unsigned node)
{
    if (!cheesetrestle_node_begin(problem, 0x14, 4, node < problem->nodes))
        return CHEESETRESTLE_NO_NODE;
    cheesetrestle_put_two(problem, symbol);
    cheesetrestle_put_two(problem, node);
    return problem->nodes++;
}

/* A variable under swaps, at most 32, the last of which acts first: two atoms for
 * each swap, one after the other. With no swaps the pointer may be null. */
static inline unsigned cheesetrestle_add_suspension(
    struct cheesetrestle_problem *problem, unsigned variable, const uint8_t *swaps, size_t count)
{
    unsigned size = count < CHEESETRESTLE_PROBLEM_ROOM / 2 ? (unsigned)(1 + 2 * count) : CHEESETRESTLE_PROBLEM_ROOM;
    unsigned fault = CHEESETRESTLE_WRONG_LENGTH;
    int there = variable < problem->variables;
    size_t i;

    if (count <= 32) {
        for (i = 0; i < 2 * count; i++)
            there = there && swaps[i] < problem->atoms;
        fault = cheesetrestle_fault_of(problem->nodes >= 512, there);
    }
    if (!cheesetrestle_field_begin(problem, 0x15, size, fault))
        return CHEESETRESTLE_NO_NODE;
    cheesetrestle_put(problem, variable);
    for (i = 0; i < 2 * count; i++)
        cheesetrestle_put(problem, swaps[i]);
    return problem->nodes++;
}

/* What is asked, and what is given. */

/* At most 64. */
static inline void cheesetrestle_add_equation(struct cheesetrestle_problem *problem, unsigned left, unsigned right)
{
    int there = left < problem->nodes && right < problem->nodes;

    if (!cheesetrestle_field_begin(problem, 0x20, 4, cheesetrestle_fault_of(problem->equations >= 64, there)))
        return;
    cheesetrestle_put_two(problem, left);
    cheesetrestle_put_two(problem, right);
    problem->equations++;
}

/* The atom does not stand free in the node; at most 64. */
static inline void cheesetrestle_add_freshness(struct cheesetrestle_problem *problem, unsigned atom, unsigned node)
{
    int there = atom < problem->atoms && node < problem->nodes;

    if (!cheesetrestle_field_begin(problem, 0x21, 3, cheesetrestle_fault_of(problem->freshness >= 64, there)))
        return;
    cheesetrestle_put(problem, atom);
    cheesetrestle_put_two(problem, node);
    problem->freshness++;
}

/* The atom does not stand free in the variable's value. */
static inline void cheesetrestle_add_assumption(struct cheesetrestle_problem *problem, unsigned atom, unsigned variable)
{
    int there = atom < problem->atoms && variable < problem->variables;

    if (!cheesetrestle_field_begin(problem, 0x22, 2, cheesetrestle_fault_of(0, there)))
        return;
    cheesetrestle_put(problem, atom);
    cheesetrestle_put(problem, variable);
}

/* The variable is not to be bound. */
static inline void cheesetrestle_add_protected(struct cheesetrestle_problem *problem, unsigned variable)
{
    if (!cheesetrestle_field_begin(problem, 0x30, 1, cheesetrestle_fault_of(0, variable < problem->variables)))
        return;
    cheesetrestle_put(problem, variable);
}

#ifdef __cplusplus
}
#endif

#endif
