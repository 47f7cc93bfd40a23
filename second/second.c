/*
 * Second program: a reader of nominal problems, a solver and a judge, written
 * from document 01 alone. Each part stands under the sentence of document 01
 * that it follows. Names are the document's words.
 *
 *   second solve              one problem on standard input, the solver's lines
 *   second judge              one problem on standard input, the judge's line
 *   second stream [ROOM]      many problems, each after its length in four bytes;
 *                             with ROOM, which is at most 16,384, so many bytes
 *                             are lent for an answer, so that 13 is seen
 *   second bench FILE REPEATS the time of one solve, over all problems of a stream
 */

#define _POSIX_C_SOURCE 200809L

#include <stddef.h>
#include <stdint.h>
#include <stdio.h>
#include <stdlib.h>
#include <string.h>
#include <time.h>

int solve(const unsigned char *input, size_t length, unsigned char *output,
          size_t room, uint64_t *place);
int judge(const unsigned char *input, size_t length, uint64_t *place);

/* ------------------------------------------------------------------------
 * Limits, tags and numbers
 * ------------------------------------------------------------------------ */

/* "atoms A (0 to 32), variables V (0 to 64)"; "At most 512 nodes, 64 equations
 * and 64 freshness fields"; "The input has at most 65,535 bytes"; "room for 576
 * is enough"; "Its output room is 16,384 bytes". */
enum {
    MOST_BYTES = 65535,
    MOST_ATOMS = 32,
    MOST_VARIABLES = 64,
    MOST_NODES = 512,
    MOST_EQUATIONS = 64,
    MOST_FRESHNESS_FIELDS = 64,
    MOST_PENDING = 576,
    OUTPUT_ROOM = 16384
};

/* The table of tags, and the three tags of the answer. */
enum {
    TAG_HEAD = 0x01,
    TAG_UNIT = 0x10,
    TAG_ATOM = 0x11,
    TAG_ABSTRACTION = 0x12,
    TAG_PAIR = 0x13,
    TAG_APPLICATION = 0x14,
    TAG_SUSPENSION = 0x15,
    TAG_EQUATION = 0x20,
    TAG_FRESHNESS = 0x21,
    TAG_ASSUMPTION = 0x22,
    TAG_PROTECTED = 0x30,
    TAG_BINDING = 0x40,
    TAG_FACT = 0x41,
    TAG_STEPS = 0x4E
};

/* The table "Numbers given back". */
enum {
    ACCEPTED = 0,
    HOLDS = 0,
    TOO_LONG = 1,
    NO_GOOD_HEAD = 2,
    CUT_SHORT = 3,
    UNKNOWN_TAG = 4,
    WRONG_LENGTH = 5,
    TOO_MANY = 6,
    NAME_NOT_THERE = 7,
    LIMIT_REACHED = 8,
    CLASH = 9,
    INSIDE_ITSELF = 10,
    WOULD_BIND_PROTECTED = 11,
    NOT_FRESH = 12,
    OUTPUT_TOO_SHORT = 13,
    DOES_NOT_HOLD = 14
};

/* ------------------------------------------------------------------------
 * Tables
 * ------------------------------------------------------------------------ */

/* A set of atoms: atom a is the bit 1 << a. */
typedef uint32_t AtomSet;

/* A permutation as the image of each atom. */
typedef struct {
    uint8_t image[MOST_ATOMS];
} Permutation;

/* "Terms: unit, atom a, abstraction [a]t, pair, application of a symbol to one
 * term, suspension of a variable under a list of swaps." The form is the
 * field's tag. A pair has two parts; an abstraction and an application have
 * one, which is the left. The swaps stay in the input. */
typedef struct {
    uint8_t form;
    uint8_t atom;
    uint8_t variable;
    uint8_t swap_count;
    uint16_t symbol;
    uint16_t left;
    uint16_t right;
    const unsigned char *swaps;
} Node;

/* "Each side is a permutation and a node." */
typedef struct {
    Permutation permutation;
    uint16_t node;
} Side;

typedef struct {
    Side left;
    Side right;
    uint16_t number;
} Equation;

/* "The binding holds the right side's node and the images acting on it from
 * outside." */
typedef struct {
    Permutation images;
    uint16_t node;
} Binding;

/* What the reader found. Nothing is cleared by the limits: an entry is written
 * when its field or name is met. */
static struct {
    unsigned atom_count;
    unsigned variable_count;
    uint32_t step_limit;
    unsigned node_count;
    unsigned equation_count;
    unsigned freshness_count;
    uint64_t protected_variables;
    Node nodes[MOST_NODES];
    uint16_t equation_left[MOST_EQUATIONS];
    uint16_t equation_right[MOST_EQUATIONS];
    AtomSet assumed[MOST_VARIABLES];
} problem;

/* What the run holds. A demand at a node is kept in `demanded_at_node`; as long
 * as it has not been looked at it is also in `waiting_at_node`, and the node is
 * then in the list `waiting_nodes`, once. */
static struct {
    uint32_t steps;
    unsigned pending;
    Equation stack[MOST_PENDING];
    uint64_t bound_variables;
    unsigned binding_count;
    uint8_t order_made[MOST_VARIABLES];
    Binding binding_of[MOST_VARIABLES];
    AtomSet demanded_of_variable[MOST_VARIABLES];
    AtomSet demanded_at_node[MOST_NODES];
    AtomSet waiting_at_node[MOST_NODES];
    unsigned waiting_count;
    uint16_t waiting_nodes[MOST_NODES];
} run;

/* Nodes seen by the occurs check have the mark of that check. */
static struct {
    uint64_t mark;
    uint64_t mark_of_node[MOST_NODES];
    unsigned waiting_count;
    uint16_t waiting_nodes[MOST_NODES];
} occurs_check;

static AtomSet only(unsigned atom)
{
    return (AtomSet)1 << atom;
}

static uint64_t only_variable(unsigned variable)
{
    return (uint64_t)1 << variable;
}

/* Each atom of `demanded` is demanded fresh for the node. A pair of atom and
 * node is looked at once only, however often it is demanded. */
static void demand_at_node(unsigned node, AtomSet demanded)
{
    AtomSet unseen = demanded & ~run.demanded_at_node[node];

    if (unseen == 0)
        return;
    if (run.waiting_at_node[node] == 0)
        run.waiting_nodes[run.waiting_count++] = (uint16_t)node;
    run.demanded_at_node[node] |= unseen;
    run.waiting_at_node[node] |= unseen;
}

/* ------------------------------------------------------------------------
 * The reader
 * ------------------------------------------------------------------------ */

/* "Numbers have the high byte first." */
static unsigned two_bytes(const unsigned char *bytes)
{
    return (unsigned)bytes[0] << 8 | bytes[1];
}

static uint32_t four_bytes(const unsigned char *bytes)
{
    return (uint32_t)two_bytes(bytes) << 16 | two_bytes(bytes + 2);
}

/* "2 (first field only: other tag, length not 6, A over 32, V over 64)" */
static int read_head(unsigned tag, const unsigned char *body, unsigned length)
{
    unsigned variable;

    if (tag != TAG_HEAD || length != 6 || body[0] > MOST_ATOMS
        || body[1] > MOST_VARIABLES)
        return NO_GOOD_HEAD;
    problem.atom_count = body[0];
    problem.variable_count = body[1];
    problem.step_limit = four_bytes(body + 2);
    problem.node_count = 0;
    problem.equation_count = 0;
    problem.freshness_count = 0;
    problem.protected_variables = 0;
    for (variable = 0; variable < problem.variable_count; variable++)
        problem.assumed[variable] = 0;
    run.waiting_count = 0;
    return ACCEPTED;
}

/* "unknown tag, or second head" */
static int tag_is_known(unsigned tag)
{
    return (tag >= TAG_UNIT && tag <= TAG_SUSPENSION)
        || (tag >= TAG_EQUATION && tag <= TAG_ASSUMPTION)
        || tag == TAG_PROTECTED;
}

/* The table's column "length". */
static int length_fits(unsigned tag, unsigned length)
{
    switch (tag) {
    case TAG_UNIT:
        return length == 0;
    case TAG_ATOM:
    case TAG_PROTECTED:
        return length == 1;
    case TAG_ASSUMPTION:
        return length == 2;
    case TAG_ABSTRACTION:
    case TAG_FRESHNESS:
        return length == 3;
    case TAG_PAIR:
    case TAG_APPLICATION:
    case TAG_EQUATION:
        return length == 4;
    default: /* suspension: "odd, 1 to 65" */
        return length % 2 == 1 && length <= 65;
    }
}

/* "over 512, 64 or 64" */
static int is_one_too_many(unsigned tag)
{
    switch (tag) {
    case TAG_EQUATION:
        return problem.equation_count == MOST_EQUATIONS;
    case TAG_FRESHNESS:
        return problem.freshness_count == MOST_FRESHNESS_FIELDS;
    case TAG_ASSUMPTION:
    case TAG_PROTECTED:
        return 0;
    default:
        return problem.node_count == MOST_NODES;
    }
}

static int atom_is_there(unsigned atom)
{
    return atom < problem.atom_count;
}

static int variable_is_there(unsigned variable)
{
    return variable < problem.variable_count;
}

/* "a node is named only after its field" */
static int node_is_there(const unsigned char *name)
{
    return two_bytes(name) < problem.node_count;
}

static int suspension_names_are_there(const unsigned char *body, unsigned length)
{
    unsigned i;

    if (!variable_is_there(body[0]))
        return 0;
    for (i = 1; i < length; i++)
        if (!atom_is_there(body[i]))
            return 0;
    return 1;
}

/* "atom, variable or node not there" */
static int names_are_there(unsigned tag, const unsigned char *body, unsigned length)
{
    switch (tag) {
    case TAG_UNIT:
        return 1;
    case TAG_ATOM:
        return atom_is_there(body[0]);
    case TAG_ABSTRACTION:
    case TAG_FRESHNESS:
        return atom_is_there(body[0]) && node_is_there(body + 1);
    case TAG_PAIR:
    case TAG_EQUATION:
        return node_is_there(body) && node_is_there(body + 2);
    case TAG_APPLICATION: /* "symbol (2 bytes, any)" */
        return node_is_there(body + 2);
    case TAG_ASSUMPTION:
        return atom_is_there(body[0]) && variable_is_there(body[1]);
    case TAG_PROTECTED:
        return variable_is_there(body[0]);
    default:
        return suspension_names_are_there(body, length);
    }
}

/* "Nodes get numbers 0, 1, .. in the order of their fields." */
static void keep_node(unsigned tag, const unsigned char *body, unsigned length)
{
    unsigned number = problem.node_count++;
    Node *node = &problem.nodes[number];

    run.demanded_at_node[number] = 0;
    run.waiting_at_node[number] = 0;
    node->form = (uint8_t)tag;
    switch (tag) {
    case TAG_UNIT:
        break;
    case TAG_ATOM:
        node->atom = body[0];
        break;
    case TAG_ABSTRACTION:
        node->atom = body[0];
        node->left = (uint16_t)two_bytes(body + 1);
        break;
    case TAG_PAIR:
        node->left = (uint16_t)two_bytes(body);
        node->right = (uint16_t)two_bytes(body + 2);
        break;
    case TAG_APPLICATION:
        node->symbol = (uint16_t)two_bytes(body);
        node->left = (uint16_t)two_bytes(body + 2);
        break;
    default:
        node->variable = body[0];
        node->swap_count = (uint8_t)(length / 2);
        node->swaps = body + 1;
    }
}

/* "22 and 30 may repeat, which changes nothing." */
static void keep_field(unsigned tag, const unsigned char *body, unsigned length)
{
    switch (tag) {
    case TAG_EQUATION:
        problem.equation_left[problem.equation_count] = (uint16_t)two_bytes(body);
        problem.equation_right[problem.equation_count] = (uint16_t)two_bytes(body + 2);
        problem.equation_count++;
        break;
    case TAG_FRESHNESS:
        demand_at_node(two_bytes(body + 1), only(body[0]));
        problem.freshness_count++;
        break;
    case TAG_ASSUMPTION:
        problem.assumed[body[1]] |= only(body[0]);
        break;
    case TAG_PROTECTED:
        problem.protected_variables |= only_variable(body[0]);
        break;
    default:
        keep_node(tag, body, length);
    }
}

/* "within a field the order is 3, then 2 (first field only), 4, 5, 6, 7"; 3 and
 * 2 have been looked at before. */
static int read_field(unsigned tag, const unsigned char *body, unsigned length)
{
    if (!tag_is_known(tag))
        return UNKNOWN_TAG;
    if (!length_fits(tag, length))
        return WRONG_LENGTH;
    if (is_one_too_many(tag))
        return TOO_MANY;
    if (!names_are_there(tag, body, length))
        return NAME_NOT_THERE;
    keep_field(tag, body, length);
    return ACCEPTED;
}

/* "Fields: one byte tag, two bytes length, body." "1 comes before all. An empty
 * input is 2. The first field at fault decides." */
static int read_problem(const unsigned char *input, size_t length, uint64_t *place)
{
    size_t offset = 0;

    *place = 0;
    if (length > MOST_BYTES)
        return TOO_LONG;
    if (length == 0)
        return NO_GOOD_HEAD;
    while (offset < length) {
        const unsigned char *field = input + offset;
        unsigned body_length;
        int number;

        *place = offset;
        if (length - offset < 3)
            return CUT_SHORT;
        body_length = two_bytes(field + 1);
        if (length - offset - 3 < body_length)
            return CUT_SHORT;
        if (offset == 0)
            number = read_head(field[0], field + 3, body_length);
        else
            number = read_field(field[0], field + 3, body_length);
        if (number != ACCEPTED)
            return number;
        offset += 3 + body_length;
    }
    *place = 0;
    return ACCEPTED;
}

/* ------------------------------------------------------------------------
 * Permutations
 * ------------------------------------------------------------------------ */

static void set_identity(Permutation *permutation)
{
    unsigned atom;

    for (atom = 0; atom < problem.atom_count; atom++)
        permutation->image[atom] = (uint8_t)atom;
}

/* "In a list of swaps the RIGHTMOST acts first." The side's permutation acts
 * after the whole list. To let a swap act before a permutation is to exchange
 * the images of its two atoms; so the leftmost swap is taken up first. */
static Permutation with_own_swaps(const Side *side)
{
    const Node *node = &problem.nodes[side->node];
    Permutation permutation = side->permutation;
    unsigned i;

    for (i = 0; i < node->swap_count; i++) {
        uint8_t *first = &permutation.image[node->swaps[2 * i]];
        uint8_t *second = &permutation.image[node->swaps[2 * i + 1]];
        uint8_t kept = *first;

        *first = *second;
        *second = kept;
    }
    return permutation;
}

/* "the atom sent to a" */
static unsigned atom_sent_to(unsigned atom, const Permutation *permutation)
{
    unsigned candidate = 0;

    while (permutation->image[candidate] != atom)
        candidate++;
    return candidate;
}

/* The atoms that are sent into the set by the images of a binding. */
static AtomSet atoms_sent_by_images(AtomSet set, const Permutation *images)
{
    AtomSet sent = 0;
    unsigned atom;

    for (atom = 0; atom < problem.atom_count; atom++)
        sent |= (set >> images->image[atom] & 1) << atom;
    return sent;
}

/* "The inverse is the reversed list": the atoms that are sent into the set by a
 * node's own swaps, the leftmost swap now acting first. */
static AtomSet atoms_sent_by_swaps(AtomSet set, const Node *node)
{
    unsigned i;

    for (i = 0; i < node->swap_count; i++) {
        unsigned first = node->swaps[2 * i];
        unsigned second = node->swaps[2 * i + 1];
        AtomSet differs = (set >> first ^ set >> second) & 1;

        set ^= differs << first | differs << second;
    }
    return set;
}

/* ------------------------------------------------------------------------
 * The run: steps
 * ------------------------------------------------------------------------ */

static int is_bound(unsigned variable)
{
    return (run.bound_variables & only_variable(variable)) != 0;
}

static int is_protected(unsigned variable)
{
    return (problem.protected_variables & only_variable(variable)) != 0;
}

/* "A side that is a suspension of a bound variable is first replaced by its
 * value under the permutations, as often as needed; that isn't counted." */
static void replace_bound(Side *side)
{
    const Node *node = &problem.nodes[side->node];

    while (node->form == TAG_SUSPENSION && is_bound(node->variable)) {
        const Binding *binding = &run.binding_of[node->variable];
        Permutation outer = with_own_swaps(side);
        unsigned atom;

        for (atom = 0; atom < problem.atom_count; atom++)
            side->permutation.image[atom] = outer.image[binding->images.image[atom]];
        side->node = binding->node;
        node = &problem.nodes[side->node];
    }
}

/* "The disagreement set of two permutations is the set of atoms that they send
 * to different atoms." "each atom of the disagreement set is demanded fresh for
 * X" */
static void demand_disagreement_set(const Equation *equation, unsigned variable)
{
    Permutation left = with_own_swaps(&equation->left);
    Permutation right = with_own_swaps(&equation->right);
    unsigned atom;

    for (atom = 0; atom < problem.atom_count; atom++)
        if (left.image[atom] != right.image[atom])
            run.demanded_of_variable[variable] |= only(atom);
}

static void wait_for_occurs_check(unsigned node)
{
    if (occurs_check.mark_of_node[node] == occurs_check.mark)
        return;
    occurs_check.mark_of_node[node] = occurs_check.mark;
    occurs_check.waiting_nodes[occurs_check.waiting_count++] = (uint16_t)node;
}

/* "if X occurs in the right side, looked at through all bindings" */
static int occurs(unsigned variable, unsigned start)
{
    occurs_check.mark++;
    occurs_check.waiting_count = 0;
    wait_for_occurs_check(start);
    while (occurs_check.waiting_count > 0) {
        unsigned number = occurs_check.waiting_nodes[--occurs_check.waiting_count];
        const Node *node = &problem.nodes[number];

        switch (node->form) {
        case TAG_PAIR:
            wait_for_occurs_check(node->right);
            wait_for_occurs_check(node->left);
            break;
        case TAG_ABSTRACTION:
        case TAG_APPLICATION:
            wait_for_occurs_check(node->left);
            break;
        case TAG_SUSPENSION:
            if (node->variable == variable)
                return 1;
            if (is_bound(node->variable))
                wait_for_occurs_check(run.binding_of[node->variable].node);
            break;
        }
    }
    return 0;
}

/* "Left is an unprotected X under P: if X occurs in the right side, looked at
 * through all bindings, 10; else X becomes the inverse of P applied to the right
 * side. The binding holds the right side's node and the images acting on it from
 * outside; that node's own swaps aren't folded in." */
static int bind(const Side *suspension, const Side *other)
{
    unsigned variable = problem.nodes[suspension->node].variable;
    Permutation permutation = with_own_swaps(suspension);
    Binding *binding = &run.binding_of[variable];
    uint8_t inverse[MOST_ATOMS];
    unsigned atom;

    if (occurs(variable, other->node))
        return INSIDE_ITSELF;
    for (atom = 0; atom < problem.atom_count; atom++)
        inverse[permutation.image[atom]] = (uint8_t)atom;
    for (atom = 0; atom < problem.atom_count; atom++)
        binding->images.image[atom] = inverse[other->permutation.image[atom]];
    binding->node = other->node;
    run.bound_variables |= only_variable(variable);
    run.order_made[run.binding_count++] = (uint8_t)variable;
    return ACCEPTED;
}

static int is_unprotected_suspension(const Node *node)
{
    return node->form == TAG_SUSPENSION && !is_protected(node->variable);
}

/* The step when at least one side is a suspension: "Suspensions of one variable
 * X"; "Left is an unprotected X under P"; "The same with the sides exchanged";
 * "Any other suspension: 11". */
static int step_at_suspension(const Equation *equation)
{
    const Node *left = &problem.nodes[equation->left.node];
    const Node *right = &problem.nodes[equation->right.node];

    run.pending--;
    if (left->form == right->form && left->variable == right->variable) {
        demand_disagreement_set(equation, left->variable);
        return ACCEPTED;
    }
    if (is_unprotected_suspension(left))
        return bind(&equation->left, &equation->right);
    if (is_unprotected_suspension(right))
        return bind(&equation->right, &equation->left);
    return WOULD_BIND_PROTECTED;
}

/* "Two units or the same atom: done." "different atoms: 9" */
static int step_at_atoms(const Equation *equation)
{
    unsigned left = problem.nodes[equation->left.node].atom;
    unsigned right = problem.nodes[equation->right.node].atom;

    run.pending--;
    if (equation->left.permutation.image[left]
        != equation->right.permutation.image[right])
        return CLASH;
    return ACCEPTED;
}

/* "Applications: the two arguments." "different symbols: 9". What comes of an
 * equation takes its place in the stack and "keeps its number". */
static int step_at_applications(Equation *equation)
{
    const Node *left = &problem.nodes[equation->left.node];
    const Node *right = &problem.nodes[equation->right.node];

    if (left->symbol != right->symbol)
        return CLASH;
    equation->left.node = left->left;
    equation->right.node = right->left;
    return ACCEPTED;
}

/* "Pairs: the left parts on top, then the right parts." */
static int step_at_pairs(Equation *equation)
{
    const Node *left = &problem.nodes[equation->left.node];
    const Node *right = &problem.nodes[equation->right.node];
    Equation *top = equation + 1;

    if (run.pending == MOST_PENDING)
        abort(); /* "room for 576 is enough" */
    *top = *equation;
    run.pending++;
    equation->left.node = left->right;
    equation->right.node = right->right;
    top->left.node = left->left;
    top->right.node = right->left;
    return ACCEPTED;
}

/* "Abstractions of a over s and b over t, permutations already applied: with a
 * equal to b, s against t; else s against t under the swap of a and b, and a is
 * demanded fresh for t." That t is under its own permutation, before the swap;
 * so the atom that this permutation sends to a is demanded fresh for t's node. */
static int step_at_abstractions(Equation *equation)
{
    const Node *left = &problem.nodes[equation->left.node];
    const Node *right = &problem.nodes[equation->right.node];
    Permutation *permutation = &equation->right.permutation;
    unsigned a = equation->left.permutation.image[left->atom];
    unsigned b = permutation->image[right->atom];

    equation->left.node = left->left;
    equation->right.node = right->left;
    if (a != b) {
        unsigned sent_to_a = atom_sent_to(a, permutation);

        demand_at_node(right->left, only(sent_to_a));
        permutation->image[sent_to_a] = (uint8_t)b;
        permutation->image[right->atom] = (uint8_t)a;
    }
    return ACCEPTED;
}

/* "Then one step, the first that fits" */
static int take_step(Equation *equation)
{
    unsigned left;
    unsigned right;

    replace_bound(&equation->left);
    replace_bound(&equation->right);
    left = problem.nodes[equation->left.node].form;
    right = problem.nodes[equation->right.node].form;
    if (left == TAG_SUSPENSION || right == TAG_SUSPENSION)
        return step_at_suspension(equation);
    if (left != right) /* "Different forms: 9" */
        return CLASH;
    switch (left) {
    case TAG_UNIT: /* "Two units: done" */
        run.pending--;
        return ACCEPTED;
    case TAG_ATOM:
        return step_at_atoms(equation);
    case TAG_APPLICATION:
        return step_at_applications(equation);
    case TAG_PAIR:
        return step_at_pairs(equation);
    default:
        return step_at_abstractions(equation);
    }
}

/* "Equations wait in a stack, the file's first on top." */
static void fill_stack(void)
{
    unsigned number = problem.equation_count;

    run.pending = 0;
    while (number > 0) {
        Equation *equation = &run.stack[run.pending++];

        number--;
        set_identity(&equation->left.permutation);
        set_identity(&equation->right.permutation);
        equation->left.node = problem.equation_left[number];
        equation->right.node = problem.equation_right[number];
        equation->number = (uint16_t)number;
    }
}

/* "Take the top, if fewer than L steps have been taken; with L taken and an
 * equation left, 8." "A refusing step counts as taken." */
static int solve_equations(uint64_t *place)
{
    fill_stack();
    run.steps = 0;
    while (run.pending > 0) {
        Equation *top = &run.stack[run.pending - 1];
        int number;

        *place = top->number;
        if (run.steps == problem.step_limit)
            return LIMIT_REACHED;
        run.steps++;
        number = take_step(top);
        if (number != ACCEPTED)
            return number;
    }
    *place = 0;
    return ACCEPTED;
}

/* ------------------------------------------------------------------------
 * The run: freshness
 * ------------------------------------------------------------------------ */

/* A demand on a bound variable goes on at the node of its value. */
static void demand_of_value(unsigned variable, AtomSet demanded)
{
    const Binding *binding = &run.binding_of[variable];

    demand_at_node(binding->node, atoms_sent_by_images(demanded, &binding->images));
}

static void demand_of_variable(unsigned variable, AtomSet demanded)
{
    AtomSet unseen = demanded & ~run.demanded_of_variable[variable];

    run.demanded_of_variable[variable] |= unseen;
    if (unseen != 0 && is_bound(variable))
        demand_of_value(variable, unseen);
}

/* "003's freshness rules: a is fresh for unit, for another atom, for a pair or
 * application if for its parts, for [a]t always, for [b]t if for t, and for a
 * suspension if the atom sent to a is fresh for its variable. A demand that ends
 * at an atom fresh for itself gives 12." */
static int resolve_at_node(const Node *node, AtomSet demanded)
{
    switch (node->form) {
    case TAG_UNIT:
        return ACCEPTED;
    case TAG_ATOM:
        return (demanded & only(node->atom)) != 0 ? NOT_FRESH : ACCEPTED;
    case TAG_ABSTRACTION:
        demand_at_node(node->left, demanded & ~only(node->atom));
        return ACCEPTED;
    case TAG_PAIR:
        demand_at_node(node->right, demanded);
        demand_at_node(node->left, demanded);
        return ACCEPTED;
    case TAG_APPLICATION:
        demand_at_node(node->left, demanded);
        return ACCEPTED;
    default:
        demand_of_variable(node->variable, atoms_sent_by_swaps(demanded, node));
        return ACCEPTED;
    }
}

/* "When no equation is left, the demands of tags 21 and 22 and those raised are
 * resolved under the bindings." "The rest are the facts of the answer: pairs of
 * atom and unbound variable": the sets `demanded_of_variable` of the variables
 * that are not bound. */
static int resolve_demands(void)
{
    unsigned i;

    for (i = 0; i < run.binding_count; i++) {
        unsigned variable = run.order_made[i];

        demand_of_value(variable, run.demanded_of_variable[variable]);
    }
    while (run.waiting_count > 0) {
        unsigned node = run.waiting_nodes[--run.waiting_count];
        AtomSet demanded = run.waiting_at_node[node];

        run.waiting_at_node[node] = 0;
        if (resolve_at_node(&problem.nodes[node], demanded) != ACCEPTED)
            return NOT_FRESH;
    }
    return ACCEPTED;
}

/* The whole run. The demands of tag 21 already wait at their nodes. */
static int take_run(int with_assumption_demands, uint64_t *place)
{
    unsigned variable;
    int number;

    run.bound_variables = 0;
    run.binding_count = 0;
    for (variable = 0; variable < problem.variable_count; variable++)
        run.demanded_of_variable[variable] =
            with_assumption_demands ? problem.assumed[variable] : 0;
    number = solve_equations(place);
    if (number != ACCEPTED)
        return number;
    return resolve_demands();
}

/* ------------------------------------------------------------------------
 * The answer
 * ------------------------------------------------------------------------ */

static unsigned fact_count_of(unsigned variable)
{
    AtomSet facts = run.demanded_of_variable[variable];
    unsigned count = 0;

    if (is_bound(variable))
        return 0;
    for (; facts != 0; facts &= facts - 1)
        count++;
    return count;
}

static size_t answer_length(void)
{
    size_t length = 7 + (size_t)run.binding_count * (6 + problem.atom_count);
    unsigned variable;

    for (variable = 0; variable < problem.variable_count; variable++)
        length += 5 * (size_t)fact_count_of(variable);
    return length;
}

static unsigned char *write_tag_and_length(unsigned char *output, unsigned tag,
                                           unsigned length)
{
    output[0] = (unsigned char)tag;
    output[1] = (unsigned char)(length >> 8);
    output[2] = (unsigned char)length;
    return output + 3;
}

/* "4E, steps (4 bytes)." */
static unsigned char *write_steps(unsigned char *output)
{
    output = write_tag_and_length(output, TAG_STEPS, 4);
    output[0] = (unsigned char)(run.steps >> 24);
    output[1] = (unsigned char)(run.steps >> 16);
    output[2] = (unsigned char)(run.steps >> 8);
    output[3] = (unsigned char)run.steps;
    return output + 4;
}

/* "Then 40 for each binding in the order made: variable, node (2 bytes), image
 * of each atom (A bytes)." */
static unsigned char *write_binding(unsigned char *output, unsigned variable)
{
    const Binding *binding = &run.binding_of[variable];

    output = write_tag_and_length(output, TAG_BINDING, 3 + problem.atom_count);
    output[0] = (unsigned char)variable;
    output[1] = (unsigned char)(binding->node >> 8);
    output[2] = (unsigned char)binding->node;
    memcpy(output + 3, binding->images.image, problem.atom_count);
    return output + 3 + problem.atom_count;
}

/* "Then 41 for each fact: atom, variable; by variable, then atom, each once." */
static unsigned char *write_facts(unsigned char *output, unsigned variable)
{
    unsigned atom;

    if (run.demanded_of_variable[variable] == 0 || is_bound(variable))
        return output;
    for (atom = 0; atom < problem.atom_count; atom++) {
        if ((run.demanded_of_variable[variable] & only(atom)) == 0)
            continue;
        output = write_tag_and_length(output, TAG_FACT, 2);
        output[0] = (unsigned char)atom;
        output[1] = (unsigned char)variable;
        output += 2;
    }
    return output;
}

static void write_answer(unsigned char *output)
{
    unsigned i;

    output = write_steps(output);
    for (i = 0; i < run.binding_count; i++)
        output = write_binding(output, run.order_made[i]);
    for (i = 0; i < problem.variable_count; i++)
        output = write_facts(output, i);
}

/* ------------------------------------------------------------------------
 * The solver and the judge
 * ------------------------------------------------------------------------ */

/* "After reading, the run gives 8 to 12. 13 is given only to an accepted problem
 * whose answer is longer than the lent output. Every refusal leaves the output
 * unchanged; an acceptance leaves the bytes after the answer unchanged." Place:
 * the answer's length, for 12 it is 0, for 13 the length wanted. */
int solve(const unsigned char *input, size_t length, unsigned char *output,
          size_t room, uint64_t *place)
{
    int number = read_problem(input, length, place);
    size_t wanted;

    if (number != ACCEPTED)
        return number;
    number = take_run(1, place);
    if (number != ACCEPTED)
        return number;
    wanted = answer_length();
    *place = wanted;
    if (wanted > room)
        return OUTPUT_TOO_SHORT;
    write_answer(output);
    return ACCEPTED;
}

/* "a resulting fact that isn't assumed" */
static int every_fact_is_assumed(void)
{
    unsigned variable;

    for (variable = 0; variable < problem.variable_count; variable++)
        if ((run.demanded_of_variable[variable] & ~problem.assumed[variable]) != 0)
            return 0;
    return 1;
}

/* "Assumptions (22) are the facts; protection changes nothing. It takes the run
 * with all variables protected and without the assumption demands. 8 stays 8. 9,
 * 11, 12, or a resulting fact that isn't assumed, gives 14; otherwise 0." */
int judge(const unsigned char *input, size_t length, uint64_t *place)
{
    int number = read_problem(input, length, place);

    if (number != ACCEPTED)
        return number;
    problem.protected_variables = UINT64_MAX;
    number = take_run(0, place);
    if (number == LIMIT_REACHED)
        return LIMIT_REACHED;
    *place = 0;
    if (number != ACCEPTED || !every_fact_is_assumed())
        return DOES_NOT_HOLD;
    return HOLDS;
}

#ifndef WITHOUT_PROGRAM

/* ------------------------------------------------------------------------
 * The program's lines
 * ------------------------------------------------------------------------ */

/* "`bind VARIABLE NODE IMAGES`, images of atoms 0 up, one space before each" */
static void print_binding(const unsigned char *body, unsigned length)
{
    unsigned i;

    printf("bind %u %u", (unsigned)body[0], two_bytes(body + 1));
    for (i = 3; i < length; i++)
        printf(" %u", (unsigned)body[i]);
    putchar('\n');
}

/* "`accepted STEPS`; then `bind ...`; then `fresh ATOM VARIABLE`, in answer
 * order." */
static void print_answer(const unsigned char *answer, size_t length)
{
    size_t offset = 0;

    while (offset < length) {
        unsigned tag = answer[offset];
        unsigned body_length = two_bytes(answer + offset + 1);
        const unsigned char *body = answer + offset + 3;

        if (tag == TAG_STEPS)
            printf("accepted %lu\n", (unsigned long)four_bytes(body));
        else if (tag == TAG_BINDING)
            print_binding(body, body_length);
        else
            printf("fresh %u %u\n", (unsigned)body[0], (unsigned)body[1]);
        offset += 3 + body_length;
    }
}

/* "`refused NUMBER PLACE`" */
static void print_refusal(int number, uint64_t place)
{
    printf("refused %d %llu\n", number, (unsigned long long)place);
}

static size_t lent_room = OUTPUT_ROOM;

static void print_solver_lines(const unsigned char *input, size_t length)
{
    static unsigned char output[OUTPUT_ROOM];
    uint64_t place;
    int number = solve(input, length, output, lent_room, &place);

    if (number == ACCEPTED)
        print_answer(output, (size_t)place);
    else
        print_refusal(number, place);
}

static void print_judge_line(const unsigned char *input, size_t length)
{
    uint64_t place;
    int number = judge(input, length, &place);

    if (number == HOLDS)
        puts("holds");
    else
        print_refusal(number, place);
}

/* One byte more than the most shows that the input is too long; what follows
 * that byte is not needed. */
static unsigned char lent_input[MOST_BYTES + 1];

static int answer_one(void (*print)(const unsigned char *, size_t))
{
    size_t length = fread(lent_input, 1, sizeof lent_input, stdin);

    if (ferror(stdin)) {
        fputs("standard input cannot be read\n", stderr);
        return 2;
    }
    print(lent_input, length);
    return fflush(stdout) == 0 ? 0 : 2;
}

/* ------------------------------------------------------------------------
 * Streams of problems
 * ------------------------------------------------------------------------ */

/* A problem that is too long is read past in pieces; it keeps its length. */
static int read_past(uint32_t length)
{
    while (length > 0) {
        size_t piece = length < sizeof lent_input ? length : sizeof lent_input;

        if (fread(lent_input, 1, piece, stdin) != piece)
            return 0;
        length -= (uint32_t)piece;
    }
    return 1;
}

/* 1: a whole problem was read. 0: the stream ended before a length. -1: it ended
 * inside a length or inside a problem. */
static int read_from_stream(uint32_t *length)
{
    unsigned char bytes[4];
    size_t got = fread(bytes, 1, sizeof bytes, stdin);

    if (got == 0)
        return 0;
    if (got < sizeof bytes)
        return -1;
    *length = four_bytes(bytes);
    if (*length > MOST_BYTES)
        return read_past(*length) ? 1 : -1;
    return fread(lent_input, 1, *length, stdin) == *length ? 1 : -1;
}

static int answer_stream(const char *room)
{
    unsigned long long count = 0;
    uint32_t length;
    int found;

    if (room != NULL)
        lent_room = (size_t)strtoul(room, NULL, 10);
    if (lent_room > OUTPUT_ROOM)
        return 2;
    while ((found = read_from_stream(&length)) == 1) {
        print_solver_lines(lent_input, length);
        print_judge_line(lent_input, length);
        putchar('\n');
        count++;
    }
    if (found == -1)
        printf("stream cut after %llu problems\n", count);
    return fflush(stdout) == 0 && !ferror(stdin) ? 0 : 2;
}

/* ------------------------------------------------------------------------
 * Timing
 * ------------------------------------------------------------------------ */

static unsigned char *load_file(const char *name, size_t *length)
{
    FILE *file = fopen(name, "rb");
    size_t room = 1 << 20;
    unsigned char *bytes = malloc(room);

    *length = 0;
    while (file != NULL && bytes != NULL) {
        size_t got = fread(bytes + *length, 1, room - *length, file);

        *length += got;
        if (got == 0) {
            fclose(file);
            return bytes;
        }
        if (*length == room) {
            room *= 2;
            bytes = realloc(bytes, room);
        }
    }
    fprintf(stderr, "%s cannot be loaded\n", name);
    exit(2);
}

/* All problems of the stream once. Gives back how many there were. */
static unsigned long long solve_all(const unsigned char *bytes, size_t length)
{
    static unsigned char output[OUTPUT_ROOM];
    unsigned long long count = 0;
    size_t offset = 0;

    while (length - offset >= 4) {
        uint32_t problem_length = four_bytes(bytes + offset);
        uint64_t place;

        offset += 4;
        if (length - offset < problem_length)
            break;
        (void)solve(bytes + offset, problem_length, output, OUTPUT_ROOM, &place);
        offset += problem_length;
        count++;
    }
    return count;
}

static int bench(const char *name, const char *repeats_text)
{
    size_t length;
    unsigned char *bytes = load_file(name, &length);
    unsigned long repeats = strtoul(repeats_text, NULL, 10);
    unsigned long long count = solve_all(bytes, length);
    struct timespec before;
    struct timespec after;
    double nanoseconds;
    unsigned long i;

    clock_gettime(CLOCK_MONOTONIC, &before);
    for (i = 0; i < repeats; i++)
        solve_all(bytes, length);
    clock_gettime(CLOCK_MONOTONIC, &after);
    nanoseconds = (double)(after.tv_sec - before.tv_sec) * 1e9
        + (double)(after.tv_nsec - before.tv_nsec);
    if (count > 0 && repeats > 0)
        nanoseconds /= (double)count * (double)repeats;
    printf("problems %llu repeats %lu nanoseconds_per_solve %.1f\n", count, repeats,
           nanoseconds);
    free(bytes);
    return 0;
}

int main(int argument_count, char **arguments)
{
    if (argument_count == 2 && strcmp(arguments[1], "solve") == 0)
        return answer_one(print_solver_lines);
    if (argument_count == 2 && strcmp(arguments[1], "judge") == 0)
        return answer_one(print_judge_line);
    if (argument_count == 2 && strcmp(arguments[1], "stream") == 0)
        return answer_stream(NULL);
    if (argument_count == 3 && strcmp(arguments[1], "stream") == 0)
        return answer_stream(arguments[2]);
    if (argument_count == 4 && strcmp(arguments[1], "bench") == 0)
        return bench(arguments[2], arguments[3]);
    fputs("usage: second solve | judge | stream [ROOM] | bench FILE REPEATS\n", stderr);
    return 2;
}

#endif
