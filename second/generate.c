/*
 * A seeded generator of problems for document 01's reader, solver and judge.
 *
 *   generate SEED COUNT                a stream of COUNT problems, each after its
 *                                      length in four bytes, high byte first
 *   generate --family NAME SEED COUNT  the same, all problems of one family
 *   generate --census SEED COUNT       no stream; on standard error how often each
 *                                      solver number and judge number occurs, and
 *                                      how often certain things matter; ends with 1
 *                                      if one of them does in less than one problem
 *                                      of 100
 *
 * The same seed gives the same bytes on every machine: all choices come from one
 * 64-bit generator, and no expression draws from it twice, since C leaves the
 * order of arguments open. Problem number i depends on the seed and on i alone.
 *
 * Some step limits are huge, but no problem takes more than a million steps: see
 * `tame`, which runs the second program's solver and judge. Few take over 65,535.
 */

#define WITHOUT_PROGRAM
#include "second.c"

/* ------------------------------------------------------------------------
 * Random choices
 * ------------------------------------------------------------------------ */

static uint64_t random_state;

/* How many problems of the same family came before: kinds that are taken in turn
 * come equally often. */
static uint64_t turn;

static uint64_t mixed(uint64_t number)
{
    number = (number ^ number >> 30) * UINT64_C(0xBF58476D1CE4E5B9);
    number = (number ^ number >> 27) * UINT64_C(0x94D049BB133111EB);
    return number ^ number >> 31;
}

static uint64_t next_random(void)
{
    random_state += UINT64_C(0x9E3779B97F4A7C15);
    return mixed(random_state);
}

/* 0 to count - 1. */
static unsigned below(unsigned count)
{
    return (unsigned)(next_random() % count);
}

static int chance(unsigned percent)
{
    return below(100) < percent;
}

/* 0 to count - 1, in turn. */
static unsigned in_turn(unsigned count)
{
    return (unsigned)(turn % count);
}

/* ------------------------------------------------------------------------
 * The problem that is being made
 * ------------------------------------------------------------------------ */

enum { MADE_ROOM = 90000, MOST_SWAPS = 32, HUGE_LIMIT_CAP = 1000000, USUAL_CAP = 20000 };

static struct {
    unsigned char bytes[MADE_ROOM];
    size_t length;
    unsigned atoms;
    unsigned variables;
    unsigned nodes;
    unsigned equations;
    unsigned freshness_fields;
    unsigned lowest_atom;
    unsigned lowest_variable;
    uint32_t cap;
} made;

static void put(unsigned byte)
{
    if (made.length < MADE_ROOM)
        made.bytes[made.length++] = (unsigned char)byte;
}

static void put_two(unsigned number)
{
    put(number >> 8 & 255);
    put(number & 255);
}

static void put_field(unsigned tag, unsigned length)
{
    put(tag);
    put_two(length);
}

static void set_limit(uint32_t limit)
{
    made.bytes[5] = (unsigned char)(limit >> 24);
    made.bytes[6] = (unsigned char)(limit >> 16);
    made.bytes[7] = (unsigned char)(limit >> 8);
    made.bytes[8] = (unsigned char)limit;
}

/* Writes the head of a new problem. */
static void start(unsigned atoms, unsigned variables, uint32_t limit)
{
    made.length = 0;
    made.atoms = atoms;
    made.variables = variables;
    made.nodes = 0;
    made.equations = 0;
    made.freshness_fields = 0;
    made.lowest_atom = 0;
    made.lowest_variable = 0;
    made.cap = USUAL_CAP;
    put_field(TAG_HEAD, 6);
    put(atoms);
    put(variables);
    made.length += 4;
    set_limit(limit);
}

/* With 512 nodes made, the last one stands for every further one. */
static int nodes_are_full(void)
{
    return made.nodes == MOST_NODES;
}

static unsigned add_unit(void)
{
    if (nodes_are_full())
        return MOST_NODES - 1;
    put_field(TAG_UNIT, 0);
    return made.nodes++;
}

static unsigned add_atom(unsigned atom)
{
    if (nodes_are_full())
        return MOST_NODES - 1;
    put_field(TAG_ATOM, 1);
    put(atom);
    return made.nodes++;
}

static unsigned add_abstraction(unsigned atom, unsigned node)
{
    if (nodes_are_full())
        return MOST_NODES - 1;
    put_field(TAG_ABSTRACTION, 3);
    put(atom);
    put_two(node);
    return made.nodes++;
}

static unsigned add_pair(unsigned left, unsigned right)
{
    if (nodes_are_full())
        return MOST_NODES - 1;
    put_field(TAG_PAIR, 4);
    put_two(left);
    put_two(right);
    return made.nodes++;
}

static unsigned add_application(unsigned symbol, unsigned node)
{
    if (nodes_are_full())
        return MOST_NODES - 1;
    put_field(TAG_APPLICATION, 4);
    put_two(symbol);
    put_two(node);
    return made.nodes++;
}

static unsigned add_suspension(unsigned variable, const uint8_t *swaps, unsigned count)
{
    unsigned i;

    if (nodes_are_full())
        return MOST_NODES - 1;
    put_field(TAG_SUSPENSION, 1 + 2 * count);
    put(variable);
    for (i = 0; i < 2 * count; i++)
        put(swaps[i]);
    return made.nodes++;
}

static void add_equation(unsigned left, unsigned right)
{
    if (made.equations == MOST_EQUATIONS)
        return;
    made.equations++;
    put_field(TAG_EQUATION, 4);
    put_two(left);
    put_two(right);
}

static void add_freshness(unsigned atom, unsigned node)
{
    if (made.freshness_fields == MOST_FRESHNESS_FIELDS)
        return;
    made.freshness_fields++;
    put_field(TAG_FRESHNESS, 3);
    put(atom);
    put_two(node);
}

static void add_assumption(unsigned atom, unsigned variable)
{
    put_field(TAG_ASSUMPTION, 2);
    put(atom);
    put(variable);
}

static void add_protected(unsigned variable)
{
    put_field(TAG_PROTECTED, 1);
    put(variable);
}

static unsigned some_atom(void)
{
    return made.lowest_atom + below(made.atoms - made.lowest_atom);
}

static unsigned some_variable(void)
{
    return made.lowest_variable + below(made.variables - made.lowest_variable);
}

/* Few atoms and variables: the first ones, or the last ones of 32 and of 64. Their
 * nodes come first, or behind so many others that numbers need two bytes. */
static void start_anywhere(unsigned atoms, unsigned variables, uint32_t limit)
{
    unsigned first_atom = atoms > 0 && chance(40) ? MOST_ATOMS - atoms : 0;
    unsigned first_variable = variables > 0 && chance(40) ? MOST_VARIABLES - variables : 0;
    unsigned others = chance(24) ? 250 + below(10) : 0;

    start(first_atom + atoms, first_variable + variables, limit);
    made.lowest_atom = first_atom;
    made.lowest_variable = first_variable;
    while (made.nodes < others)
        add_unit();
}

static void random_swaps(uint8_t *swaps, unsigned count)
{
    unsigned i;

    for (i = 0; i < 2 * count; i++)
        swaps[i] = (uint8_t)some_atom();
}

/* Few swaps, or as many as there may be. */
static unsigned some_swap_count(void)
{
    return chance(20) ? MOST_SWAPS : 1 + below(4);
}

static unsigned add_random_suspension(unsigned variable, unsigned most_swaps)
{
    uint8_t swaps[2 * MOST_ATOMS];
    unsigned count = made.atoms > 0 ? below(most_swaps + 1) : 0;

    random_swaps(swaps, count);
    return add_suspension(variable, swaps, count);
}

/* ------------------------------------------------------------------------
 * Terms, and terms related to them
 * ------------------------------------------------------------------------ */

enum { MOST_TERMS = 30000, NO_NODE = 65535 };

typedef struct {
    uint8_t form;
    uint8_t atom;
    uint8_t variable;
    uint8_t swap_count;
    uint16_t symbol;
    uint16_t left;
    uint16_t right;
    uint16_t node;
    uint8_t swaps[2 * MOST_ATOMS];
} Term;

static Term terms[MOST_TERMS];
static unsigned term_count;

/* Near the end of the table terms are no longer copied or made. */
static int terms_are_full(void)
{
    return term_count > MOST_TERMS - 100;
}

static unsigned new_term(unsigned form)
{
    memset(&terms[term_count], 0, sizeof terms[term_count]);
    terms[term_count].form = (uint8_t)form;
    terms[term_count].node = NO_NODE;
    return term_count++;
}

static unsigned copy_of(unsigned term)
{
    unsigned copy = new_term(terms[term].form);

    terms[copy] = terms[term];
    terms[copy].node = NO_NODE;
    return copy;
}

static unsigned some_symbol(void)
{
    unsigned kind = below(40);

    if (kind == 0)
        return 65535;
    if (kind == 1)
        return below(65536);
    return kind % 3;
}

static unsigned random_suspension_term(void)
{
    unsigned term = new_term(TAG_SUSPENSION);
    unsigned most = chance(5) ? 32 : 3;
    unsigned count = made.atoms > 0 && chance(50) ? below(most + 1) : 0;

    terms[term].variable = (uint8_t)some_variable();
    terms[term].swap_count = (uint8_t)count;
    random_swaps(terms[term].swaps, count);
    return term;
}

static unsigned random_leaf(void)
{
    unsigned kind = below(100);
    unsigned term;

    if (kind < 50 && made.variables > 0)
        return random_suspension_term();
    if (kind >= 85 || made.atoms == 0)
        return new_term(TAG_UNIT);
    term = new_term(TAG_ATOM);
    terms[term].atom = (uint8_t)some_atom();
    return term;
}

static unsigned random_term(unsigned depth)
{
    unsigned kind = below(100);
    unsigned left;
    unsigned right = 0;
    unsigned term;

    if (terms_are_full())
        return 0;
    if (depth == 0 || kind < 12)
        return random_leaf();
    left = random_term(depth - 1);
    if (kind < 45 && made.atoms > 0) {
        term = new_term(TAG_ABSTRACTION);
        terms[term].atom = (uint8_t)some_atom();
    } else if (kind < 80) {
        right = random_term(depth - 1);
        term = new_term(TAG_PAIR);
    } else {
        term = new_term(TAG_APPLICATION);
        terms[term].symbol = (uint16_t)some_symbol();
    }
    terms[term].left = (uint16_t)left;
    terms[term].right = (uint16_t)right;
    return term;
}

static uint8_t swapped_atom(uint8_t atom, unsigned a, unsigned b)
{
    if (atom == a)
        return (uint8_t)b;
    return atom == b ? (uint8_t)a : atom;
}

/* With 32 swaps already there the new one is left out, which makes the two sides
 * of an equation differ. */
static void put_swap_in_front(Term *suspension, unsigned a, unsigned b)
{
    if (suspension->swap_count == MOST_ATOMS)
        return;
    memmove(suspension->swaps + 2, suspension->swaps, 2u * suspension->swap_count);
    suspension->swaps[0] = (uint8_t)a;
    suspension->swaps[1] = (uint8_t)b;
    suspension->swap_count++;
}

/* The term under the swap of a and b. */
static unsigned swapped(unsigned term, unsigned a, unsigned b)
{
    unsigned copy;
    Term *made_term;
    unsigned part;

    if (terms_are_full())
        return term;
    copy = copy_of(term);
    made_term = &terms[copy];
    made_term->atom = swapped_atom(made_term->atom, a, b);
    switch (made_term->form) {
    case TAG_SUSPENSION:
        put_swap_in_front(made_term, a, b);
        break;
    case TAG_PAIR:
        part = swapped(made_term->right, a, b);
        made_term->right = (uint16_t)part;
        part = swapped(made_term->left, a, b);
        made_term->left = (uint16_t)part;
        break;
    case TAG_ABSTRACTION:
    case TAG_APPLICATION:
        part = swapped(made_term->left, a, b);
        made_term->left = (uint16_t)part;
        break;
    }
    return copy;
}

/* How often, in percent and for each place of a term: a binder is renamed, a part
 * becomes a variable, a part is changed. */
typedef struct {
    unsigned rename;
    unsigned instance;
    unsigned change;
} Changes;

static unsigned changed(unsigned term)
{
    unsigned kind = below(4);
    unsigned a;
    unsigned b;

    if (kind == 0)
        return random_leaf();
    if (kind == 1)
        return random_term(2);
    if (terms[term].form == TAG_APPLICATION) {
        term = copy_of(term);
        terms[term].symbol ^= chance(50) ? 1 : 256;
        return term;
    }
    if (made.atoms == 0)
        return random_leaf();
    a = some_atom();
    b = some_atom();
    return swapped(term, a, b);
}

/* The same binder under another name. The new name may be free in the body; then
 * the two abstractions are not equal. */
static unsigned renamed_abstraction(unsigned abstraction)
{
    unsigned a = terms[abstraction].atom;
    unsigned b = some_atom();
    unsigned body = swapped(terms[abstraction].left, a, b);

    terms[abstraction].atom = (uint8_t)b;
    terms[abstraction].left = (uint16_t)body;
    return abstraction;
}

static unsigned varied(unsigned term, const Changes *changes)
{
    unsigned copy;
    unsigned part;

    if (terms_are_full())
        return term;
    if (made.variables > 0 && chance(changes->instance))
        return random_suspension_term();
    if (chance(changes->change))
        return changed(term);
    if (terms[term].form != TAG_ABSTRACTION && terms[term].form != TAG_PAIR
        && terms[term].form != TAG_APPLICATION)
        return term;
    copy = copy_of(term);
    part = varied(terms[copy].left, changes);
    terms[copy].left = (uint16_t)part;
    if (terms[copy].form == TAG_PAIR) {
        part = varied(terms[copy].right, changes);
        terms[copy].right = (uint16_t)part;
    }
    if (terms[copy].form == TAG_ABSTRACTION && chance(changes->rename))
        return renamed_abstraction(copy);
    return copy;
}

static unsigned emitted(unsigned term, int shared);

static unsigned emitted_compound(unsigned term, int shared)
{
    unsigned left = emitted(terms[term].left, shared);
    unsigned right;

    switch (terms[term].form) {
    case TAG_PAIR:
        right = emitted(terms[term].right, shared);
        return add_pair(left, right);
    case TAG_ABSTRACTION:
        return add_abstraction(terms[term].atom, left);
    default:
        return add_application(terms[term].symbol, left);
    }
}

/* The node of a term. Shared: a term that has a node keeps it. */
static unsigned emitted(unsigned term, int shared)
{
    unsigned node;

    if (shared && terms[term].node != NO_NODE)
        return terms[term].node;
    switch (terms[term].form) {
    case TAG_UNIT:
        node = add_unit();
        break;
    case TAG_ATOM:
        node = add_atom(terms[term].atom);
        break;
    case TAG_SUSPENSION:
        node = add_suspension(terms[term].variable, terms[term].swaps,
                              terms[term].swap_count);
        break;
    default:
        node = emitted_compound(term, shared);
    }
    terms[term].node = (uint16_t)node;
    return node;
}

/* ------------------------------------------------------------------------
 * Small problems
 * ------------------------------------------------------------------------ */

static const Changes relations[] = {
    {0, 0, 0},   {60, 0, 0},  {60, 0, 0}, {30, 15, 0}, {0, 20, 0},
    {40, 10, 4}, {50, 0, 8},  {0, 0, 10}, {30, 8, 0},  {80, 5, 0}
};

enum { RELATION_COUNT = sizeof relations / sizeof relations[0] };

static uint32_t some_limit(void)
{
    unsigned kind = below(100);

    if (kind < 60)
        return 100;
    if (kind < 74)
        return below(12);
    if (kind < 84)
        return UINT32_C(4294967295);
    if (kind < 87)
        return UINT32_C(0x80000000);
    if (kind < 89)
        return UINT32_C(16777216) * (1 + below(255));
    if (kind < 91)
        return UINT32_C(65536) * (1 + below(65535));
    return 20 + below(80);
}

/* The limit of a readable problem becomes as many steps as the solver takes, or the
 * judge, or one step less or more. */
static void set_limit_at_the_edge(void)
{
    static unsigned char answer[OUTPUT_ROOM];
    int of_solver = chance(70);
    unsigned kind = below(5);
    uint64_t place;

    set_limit(made.cap);
    if (of_solver)
        solve(made.bytes, made.length, answer, sizeof answer, &place);
    else
        judge(made.bytes, made.length, &place);
    if (kind < 2)
        set_limit(run.steps);
    else if (kind < 4)
        set_limit(run.steps > 0 ? run.steps - 1 : 0);
    else
        set_limit(run.steps + 1);
}

/* One equation of two sides that are both related to the term. */
static void add_equation_from(unsigned base, const Changes *changes)
{
    int shared = chance(50);
    unsigned left_term = chance(30) ? varied(base, changes) : base;
    unsigned right_term = varied(base, changes);
    unsigned left;
    unsigned right;

    if (chance(50)) {
        unsigned kept = left_term;

        left_term = right_term;
        right_term = kept;
    }
    left = emitted(left_term, shared);
    right = emitted(right_term, shared);
    add_equation(left, right);
}

static void add_related_equation(unsigned depth, const Changes *changes)
{
    static const Changes unrelated = {0, 0, 100};
    unsigned base = random_term(depth);

    if (chance(4))
        changes = &unrelated;
    add_equation_from(base, changes);
}

static void add_protection(unsigned percent)
{
    unsigned variable;

    for (variable = made.lowest_variable; variable < made.variables; variable++)
        if (chance(percent))
            add_protected(variable);
}

static void add_random_assumptions(unsigned count)
{
    if (made.atoms == 0 || made.variables == 0)
        return;
    while (count > 0) {
        unsigned atom = some_atom();
        unsigned variable = some_variable();

        add_assumption(atom, variable);
        count--;
    }
}

static void add_random_freshness(unsigned count)
{
    if (made.atoms == 0)
        return;
    while (count > 0) {
        unsigned term = random_term(3);
        unsigned atom = some_atom();
        unsigned node = emitted(term, 0);

        if (made.nodes > 0 && chance(40))
            node = below(made.nodes);
        add_freshness(atom, node);
        count--;
    }
}

/* Put the facts that the problem needs with all variables protected into it as
 * assumptions; sometimes one of them is missing, or is about another atom. */
static void assume_needed_facts(void)
{
    static unsigned char trial[MADE_ROOM + 4 * MOST_VARIABLES];
    static unsigned char answer[OUTPUT_ROOM];
    size_t length = made.length;
    size_t offset = 7;
    unsigned dropped = chance(50) ? below(3) : NO_NODE;
    unsigned variable;
    uint64_t place;

    memcpy(trial, made.bytes, length);
    trial[5] = trial[6] = 0;
    for (variable = 0; variable < made.variables; variable++) {
        trial[length++] = TAG_PROTECTED;
        trial[length++] = 0;
        trial[length++] = 1;
        trial[length++] = (unsigned char)variable;
    }
    if (solve(trial, length, answer, sizeof answer, &place) != ACCEPTED)
        return;
    for (; offset < place; offset += 5)
        if (dropped-- != 0)
            add_assumption(answer[offset + 3], answer[offset + 4]);
        else if (chance(50))
            add_assumption(some_atom(), answer[offset + 4]);
}

static void make_small(void)
{
    static const uint8_t protections[] = {0, 0, 0, 0, 20, 50, 100};
    unsigned atoms = chance(8) ? 0 : 1 + below(5);
    unsigned variables = chance(12) ? 0 : 1 + below(5);
    uint32_t limit = some_limit();
    unsigned equations = chance(6) ? 0 : 1 + below(3);
    unsigned protection = protections[below(sizeof protections)];

    start_anywhere(atoms, variables, limit);
    if (chance(30))
        add_protection(protection);
    for (; equations > 0; equations--) {
        unsigned depth = 1 + below(4);
        unsigned relation = below(RELATION_COUNT);

        add_related_equation(depth, &relations[relation]);
        if (chance(20))
            add_random_freshness(1);
        if (chance(15))
            add_random_assumptions(1);
    }
    if (chance(40))
        add_random_freshness(1 + below(2));
    add_protection(protection);
    if (chance(30))
        add_random_assumptions(1 + below(4));
    if (chance(25))
        assume_needed_facts();
    if (chance(20))
        set_limit_at_the_edge();
}

/* All sides are equal up to renamed binders; the judge often says yes. */
static void make_twins(void)
{
    static const Changes twins[] = {{70, 0, 0}, {100, 0, 0}, {30, 0, 1}};
    unsigned atoms = 1 + below(6);
    unsigned variables = chance(10) ? 0 : 1 + below(2);
    unsigned equations = 1 + below(3);

    start_anywhere(atoms, variables, 100 + below(200));
    for (; equations > 0; equations--) {
        unsigned depth = 1 + below(4);
        unsigned relation = below(3);

        add_related_equation(depth, &twins[relation]);
    }
    if (chance(30))
        add_random_freshness(1);
    if (chance(80))
        assume_needed_facts();
    if (chance(60))
        add_random_assumptions(1);
    if (chance(10))
        add_protection(50);
    if (chance(20))
        set_limit_at_the_edge();
}

/* The term under a list of swaps, the rightmost first. */
static unsigned under_swaps(unsigned term, const uint8_t *swaps, unsigned count)
{
    while (count-- > 0)
        term = swapped(term, swaps[2 * count], swaps[2 * count + 1]);
    return term;
}

/* The equation of a variable under swaps and a term, which becomes the variable's
 * value: the term under the list's inverse, that is, the leftmost swap first. */
static unsigned add_value(unsigned variable, unsigned *term)
{
    uint8_t swaps[2 * MOST_ATOMS];
    unsigned count = some_swap_count();
    unsigned left;
    unsigned right;
    unsigned i;

    random_swaps(swaps, count);
    left = add_suspension(variable, swaps, count);
    right = emitted(*term, 0);
    if (chance(50))
        add_equation(left, right);
    else
        add_equation(right, left);
    for (i = 0; i < count; i++)
        *term = swapped(*term, swaps[2 * i], swaps[2 * i + 1]);
    return left;
}

/* Suspensions, mostly: chains of variables, cycles, values under swaps. */
static void make_suspensions(void)
{
    unsigned atoms = below(6);
    unsigned variables = 1 + below(6);
    unsigned equations = 1 + below(4);
    uint32_t limit = some_limit();

    start_anywhere(atoms, variables, limit);
    for (; equations > 0; equations--) {
        unsigned variable = some_variable();
        unsigned left = add_random_suspension(variable, 3);
        unsigned depth = chance(60) ? 0 : 1 + below(2);
        unsigned term = random_term(depth);
        unsigned right = chance(15) ? add_random_suspension(variable, 3) : emitted(term, 0);

        if (chance(50)) {
            left = add_pair(add_random_suspension(some_variable(), 2), left);
            right = add_pair(add_random_suspension(some_variable(), 2), right);
        }
        if (chance(50))
            add_equation(left, right);
        else
            add_equation(right, left);
    }
    if (chance(40))
        add_random_freshness(1 + below(3));
    if (chance(40))
        add_random_assumptions(1 + below(3));
    add_protection(chance(20) ? 30 : 0);
    if (chance(20))
        set_limit_at_the_edge();
}

/* A side under so many binders. */
static unsigned add_binders(unsigned node, unsigned count)
{
    for (; count > 0; count--)
        node = add_abstraction(some_atom(), node);
    return node;
}

/* A variable that has a value is met under other swaps: against what it has to be,
 * against where it got its value, or against another variable; sometimes below
 * binders. */
static void meet_value(unsigned variable, unsigned value, unsigned node)
{
    uint8_t swaps[2 * MOST_SWAPS];
    unsigned count = some_swap_count();
    unsigned kind = below(4);
    unsigned binders = chance(50) ? 1 + below(3) : 0;
    unsigned again;
    unsigned other;

    random_swaps(swaps, count);
    again = add_binders(add_suspension(variable, swaps, count), binders);
    if (kind == 0)
        node = emitted(under_swaps(value, swaps, count), 0);
    else if (kind > 1)
        node = add_random_suspension(made.lowest_variable - 1, 3);
    other = add_binders(node, binders);
    if (chance(50))
        add_equation(again, other);
    else
        add_equation(other, again);
}

/* A variable gets a value under swaps, after another variable has become that
 * variable; then both are met again. The value has neither of them, nor the third
 * variable, which they are met with. */
static void make_values(void)
{
    unsigned atoms = 3 + below(3);
    unsigned variables = 4 + below(3);
    unsigned variable;
    unsigned count;
    unsigned node;
    unsigned term;

    start_anywhere(atoms, variables, chance(80) ? 200 : some_limit());
    variable = made.lowest_variable;
    made.lowest_variable += 3;
    term = random_term(1 + below(3));
    node = add_random_suspension(variable, 0);
    add_equation(add_random_suspension(variable + 1, 0), node);
    if (chance(30))
        add_equation(add_random_suspension(variable, 3), node);
    node = add_value(variable, &term);
    for (count = 1 + below(3); count > 0; count--)
        meet_value(variable + below(2), term, node);
    for (count = 1 + below(3); count > 0; count--)
        add_freshness(some_atom(), node);
    if (chance(40))
        add_assumption(some_atom(), variable);
}

/* ------------------------------------------------------------------------
 * Problems in which one thing matters
 * ------------------------------------------------------------------------ */

/* Two applications whose symbols differ in one bit, inside terms that are equal. */
static void make_symbols(void)
{
    unsigned kind = in_turn(3);
    unsigned bit = kind == 0 ? 15 : kind == 1 ? below(8) : 8 + below(7);
    unsigned symbol = below(65536);
    unsigned depth = below(4);
    unsigned atoms = 1 + below(3);
    unsigned argument;
    unsigned left;
    unsigned right;

    start_anywhere(atoms, 2, 100);
    argument = emitted(random_term(1 + below(2)), 0);
    left = add_application(symbol, argument);
    right = add_application(symbol ^ 1u << bit, argument);
    for (; depth > 0; depth--) {
        unsigned atom = some_atom();

        kind = below(3);
        left = kind == 0 ? add_abstraction(atom, left)
            : kind == 1 ? add_pair(argument, left) : add_pair(left, argument);
        right = kind == 0 ? add_abstraction(atom, right)
            : kind == 1 ? add_pair(argument, right) : add_pair(right, argument);
    }
    if (chance(50))
        add_equation(argument, argument);
    add_equation(left, right);
}

/* A variable inside its own value: in a pair's right part, under a binder, or
 * behind a binding. */
static void make_cycles(void)
{
    unsigned kind = in_turn(3);
    unsigned atoms = 1 + below(3);
    unsigned variable;
    unsigned left;
    unsigned right;

    start_anywhere(atoms, 2, 100);
    variable = made.lowest_variable;
    left = add_random_suspension(variable, 2);
    right = add_random_suspension(variable + (kind == 2), 2);
    if (kind == 0)
        right = add_pair(add_unit(), right);
    else if (kind == 1)
        right = add_abstraction(some_atom(), right);
    else
        right = add_application(0, right);
    if (chance(50))
        add_equation(left, right);
    else
        add_equation(right, left);
    if (kind == 2) {
        right = add_random_suspension(variable + 1, 2);
        left = add_pair(left, left);
        add_equation(right, left);
    }
}

/* Atom 31 against another atom, in a disagreement set of which some may be assumed,
 * or demanded fresh below a binder. */
static void make_last_atom(void)
{
    static const uint8_t swap[] = {MOST_ATOMS - 1, MOST_ATOMS - 2};
    unsigned kind = in_turn(3);
    unsigned left;
    unsigned right;

    start(MOST_ATOMS, 1 + below(MOST_VARIABLES), 100);
    made.lowest_atom = MOST_ATOMS - 4;
    made.lowest_variable = made.variables - 1;
    left = kind == 0 ? add_atom(MOST_ATOMS - 1) : add_random_suspension(some_variable(), 2);
    right = kind == 0 ? add_atom(some_atom()) : add_suspension(some_variable(), swap, 1);
    if (kind == 2)
        add_freshness(MOST_ATOMS - 1, add_abstraction(some_atom(), left));
    else
        add_equation(left, right);
    if (kind == 1)
        add_random_assumptions(below(3));
}

/* A protected variable from 8 up, against a term or against a variable that is not
 * protected; sometimes the variable 32 below it is bound too. */
static void make_protected(void)
{
    unsigned kind = in_turn(4);
    unsigned variables = chance(60) ? MOST_VARIABLES : 9 + below(56);
    unsigned variable = chance(60) ? variables - 1 : 8 + below(variables - 8);
    unsigned other = below(variable);
    unsigned unit;
    unsigned left;
    unsigned right;

    start(1 + below(MOST_ATOMS), variables, 100);
    if (chance(50))
        add_protected(variable);
    unit = add_unit();
    left = add_random_suspension(variable, 3);
    right = kind < 2 ? add_random_suspension(other, 3) : unit;
    if (kind == 3)
        right = add_abstraction(some_atom(), right);
    if (variable >= 32 && chance(50))
        add_equation(unit, add_random_suspension(variable - 32, 1));
    if (chance(50))
        add_equation(left, right);
    else
        add_equation(right, left);
    add_protected(variable);
}

/* Over 65,535 steps: 15 pairs of a node with itself, one inside the other, take
 * 65,535 of them, and each equation beside takes one. */
static void make_long_run(void)
{
    static const uint32_t limits[] = {
        UINT32_C(4294967295), UINT32_C(2147483648), UINT32_C(2147483647),
        UINT32_C(16777216), UINT32_C(131072), UINT32_C(65536)
    };
    uint32_t limit = limits[in_turn(sizeof limits / sizeof limits[0])];
    unsigned others = 1 + below(6);
    unsigned atoms = 1 + below(3);
    unsigned depth = 15;
    unsigned leaf;
    unsigned node;

    start_anywhere(atoms, 2, limit);
    made.cap = HUGE_LIMIT_CAP;
    leaf = chance(50) ? add_random_suspension(made.lowest_variable, 2) : add_unit();
    node = leaf;
    for (; depth > 0; depth--)
        node = add_pair(node, node);
    if (chance(25))
        add_equation(add_random_suspension(made.lowest_variable + 1, 2), node);
    add_equation(node, node);
    while (made.equations <= others)
        add_equation(leaf, leaf);
    if (chance(25))
        set_limit_at_the_edge();
}

/* ------------------------------------------------------------------------
 * Large problems
 * ------------------------------------------------------------------------ */

static uint32_t some_large_limit(void)
{
    unsigned kind = below(10);

    if (kind == 0)
        return below(2000);
    return kind < 5 ? UINT32_C(4294967295) : 100000;
}

/* X against a term without X and without the variables below it. */
static void add_definition(unsigned variable)
{
    unsigned left = add_random_suspension(variable, chance(20) ? 32 : 3);
    unsigned right;

    made.lowest_variable = variable + 1;
    right = emitted(random_term(2), 0);
    made.lowest_variable = 0;
    if (chance(50))
        add_equation(left, right);
    else
        add_equation(right, left);
}

/* 64 equations, 32 atoms, 64 variables, most of the 512 nodes. */
static void make_many_equations(void)
{
    static const Changes changes = {30, 20, 0};
    int backwards = chance(50);
    unsigned related = chance(40) ? 0 : 1 + below(8);
    unsigned i;

    start(32, 64, some_large_limit());
    for (i = 0; i < 63 - related; i++)
        add_definition(backwards ? 62 - i : i);
    for (; related > 0; related--)
        add_related_equation(2, &changes);
    add_equation(0, 0);
    add_random_freshness(chance(50) ? MOST_FRESHNESS_FIELDS : below(4));
    if (chance(30))
        add_random_assumptions(below(100));
    add_protection(chance(20) ? 3 : 0);
}

/* A term of about so many parts. */
static unsigned large_term(unsigned wanted)
{
    unsigned before = term_count;
    unsigned term = random_term(4);

    while (term_count - before < wanted) {
        unsigned part = random_term(4);
        unsigned joined = new_term(TAG_PAIR);
        int to_the_left = chance(50);

        terms[joined].left = (uint16_t)(to_the_left ? term : part);
        terms[joined].right = (uint16_t)(to_the_left ? part : term);
        term = joined;
        if (chance(50)) {
            joined = new_term(TAG_ABSTRACTION);
            terms[joined].atom = (uint8_t)some_atom();
            terms[joined].left = (uint16_t)term;
            term = joined;
        }
    }
    return term;
}

/* Two large related sides. */
static void make_large_sides(void)
{
    static const Changes changes[] = {{8, 1, 0}, {15, 0, 0}, {5, 3, 0}, {10, 1, 1}};
    unsigned atoms = chance(70) ? 32 : 1 + below(32);
    unsigned variables = chance(70) ? 64 : 1 + below(64);
    unsigned equations = 1 + below(3);
    unsigned wanted = 240 / equations;
    unsigned kind = below(4);

    start(atoms, variables, some_large_limit());
    for (; equations > 0; equations--)
        add_equation_from(large_term(wanted), &changes[kind]);
    if (chance(50))
        assume_needed_facts();
    add_random_freshness(below(5));
}

/* 511 nested pairs and 64 equations: the deepest stack. */
static void make_nested_pairs(void)
{
    unsigned to_the_left = below(3);
    unsigned atoms = below(33);
    unsigned leaf;
    unsigned node;

    start(atoms, 1, UINT32_C(4294967295));
    made.cap = HUGE_LIMIT_CAP;
    leaf = chance(50) ? add_unit() : add_random_suspension(0, 32);
    node = leaf;
    while (!nodes_are_full()) {
        if (to_the_left > 0)
            node = add_pair(node, leaf);
        else
            node = add_pair(leaf, node);
    }
    while (made.equations < MOST_EQUATIONS)
        add_equation(node, node);
    if (made.atoms > 0)
        while (made.freshness_fields < MOST_FRESHNESS_FIELDS)
            add_freshness(some_atom(), node);
}

/* Pairs of one node with itself, 2^depth paths; some abstractions and
 * applications between. */
static unsigned add_shared_pairs(unsigned leaf, unsigned depth)
{
    unsigned node = leaf;

    for (; depth > 0; depth--) {
        unsigned kind = below(12);

        node = add_pair(node, node);
        if (kind == 0 && made.atoms > 0)
            node = add_abstraction(some_atom(), node);
        if (kind == 1)
            node = add_application(7, node);
    }
    return node;
}

static void make_shared_pairs(void)
{
    int deep = chance(60);
    unsigned depth = deep ? 20 + below(200) : 1 + below(14);
    unsigned atoms = 1 + below(32);
    unsigned leaf;
    unsigned first;
    unsigned second;
    unsigned i;

    start(atoms, 64, deep ? below(3000) : UINT32_C(4294967295));
    if (chance(10))
        made.cap = HUGE_LIMIT_CAP;
    leaf = chance(70) ? add_random_suspension(0, 32) : add_atom(some_atom());
    first = add_shared_pairs(leaf, depth);
    if (chance(50))
        leaf = add_random_suspension(chance(50), 32);
    second = chance(30) ? first : add_shared_pairs(leaf, depth);
    for (i = below(6); i > 0; i--)
        add_freshness(some_atom(), first);
    if (chance(70))
        add_equation(first, second);
    for (i = below(3); i > 0; i--)
        add_freshness(some_atom(), second);
}

static unsigned variable_nodes[MOST_VARIABLES];

static void add_variable_nodes(unsigned most_swaps)
{
    unsigned variable;

    for (variable = 0; variable < made.variables; variable++)
        variable_nodes[variable] = add_random_suspension(variable, most_swaps);
}

/* X0 against X1, X1 against X2, ..: up, down or mixed, under long swap lists; then
 * questions to the ends of the chain, and sometimes a cycle. */
static void make_binding_chain(void)
{
    unsigned order = below(3);
    unsigned ending = below(5);
    unsigned atoms = below(33);
    unsigned variables = chance(40) ? 64 : 2 + below(63);
    unsigned last;
    unsigned i;

    start(atoms, variables, some_large_limit());
    add_variable_nodes(chance(50) ? 32 : 2);
    last = made.variables - 1;
    for (i = 0; i < last && i < MOST_EQUATIONS - 2; i++) {
        unsigned variable = order == 0 ? i : order == 1 ? last - 1 - i : below(last);

        add_equation(variable_nodes[variable], variable_nodes[variable + 1]);
    }
    if (ending == 0)
        add_equation(variable_nodes[last], add_unit());
    if (ending == 1)
        add_equation(add_application(1, variable_nodes[0]), variable_nodes[last]);
    if (ending == 2)
        add_equation(variable_nodes[0], variable_nodes[last]);
    if (ending == 3 && made.atoms > 0)
        add_equation(variable_nodes[last / 2], add_atom(some_atom()));
    add_equation(variable_nodes[0], add_random_suspension(last, 32));
    if (made.atoms > 0)
        for (i = 0; i < 3; i++)
            add_freshness(some_atom(), variable_nodes[i * last / 2]);
    add_protection(chance(10) ? 2 : 0);
}

/* The example of 003's section 5.1: f(X1, X1) against X2, f(X2, X2) against X3,
 * .., with abstractions here and there; then a question about the last one. */
static void make_exponential_bindings(void)
{
    unsigned backwards = below(2);
    unsigned atoms = below(33);
    unsigned variables = chance(40) ? 64 : 2 + below(63);
    unsigned last;
    unsigned i;

    start(atoms, variables, chance(70) ? 100000 : below(100));
    add_variable_nodes(chance(50) ? 4 : 0);
    last = made.variables - 1;
    for (i = 0; i < last; i++) {
        unsigned variable = backwards ? last - 1 - i : i;
        unsigned node = variable_nodes[variable];

        node = add_pair(node, node);
        if (made.atoms > 0 && chance(20))
            node = add_abstraction(some_atom(), node);
        add_equation(add_application(0, node), variable_nodes[variable + 1]);
    }
    if (chance(40))
        add_equation(variable_nodes[0], add_application(0, variable_nodes[last]));
    if (chance(30))
        add_equation(variable_nodes[last], add_random_suspension(last, 4));
    if (made.atoms > 0)
        for (i = below(5); i > 0; i--)
            add_freshness(some_atom(), variable_nodes[last]);
    if (chance(20))
        add_random_assumptions(5);
}

/* Long lists of binders with other names on the other side. */
static void make_deep_abstractions(void)
{
    unsigned atoms = 2 + below(31);
    unsigned depth = 1 + below(255);
    unsigned left;
    unsigned right;

    start(atoms, 1, some_large_limit());
    left = add_random_suspension(0, 32);
    right = chance(70) ? add_random_suspension(0, 32) : add_atom(some_atom());
    for (; depth > 0; depth--) {
        unsigned atom = some_atom();

        left = add_abstraction(atom, left);
        if (chance(60))
            atom = some_atom();
        right = add_abstraction(atom, right);
    }
    if (chance(50))
        add_equation(left, right);
    else
        add_equation(right, left);
    if (chance(70))
        assume_needed_facts();
}

/* Answers of many facts: up to 64 variables and 32 atoms. */
static void make_many_facts(void)
{
    unsigned atoms = chance(60) ? 32 : 1 + below(32);
    unsigned variables = chance(60) ? 64 : 1 + below(64);
    int binding = chance(50);
    unsigned node;
    unsigned i;

    start(atoms, variables, 1000);
    add_variable_nodes(32);
    node = variable_nodes[0];
    for (i = 1; i < made.variables; i++)
        node = add_pair(node, variable_nodes[i]);
    for (i = 0; i < made.atoms; i++)
        if (chance(90))
            add_freshness(i, node);
    for (i = 0; i < 20; i++) {
        unsigned variable = some_variable();
        unsigned other = add_random_suspension(variable, 32);

        if (binding && chance(20))
            variable = some_variable();
        add_equation(variable_nodes[variable], other);
    }
    if (chance(50))
        assume_needed_facts();
}

/* Many fields of tags 22 and 30, up to the last byte that is allowed. */
static void make_long_input(void)
{
    size_t wanted = MOST_BYTES - below(12);
    unsigned atoms = 1 + below(32);

    start(atoms, 1 + below(64), 100);
    while (made.nodes < 200)
        add_random_suspension(some_variable(), 32);
    while (made.equations < MOST_EQUATIONS) {
        unsigned left = below(made.nodes);
        unsigned right = below(made.nodes);

        add_equation(left, right);
    }
    while (made.length + 9 <= wanted) {
        if ((wanted - made.length) % 5 != 0 && chance(50))
            add_protected(some_variable());
        else
            add_random_assumptions(1);
    }
    if (wanted - made.length == 5 || wanted - made.length == 8)
        add_random_assumptions(1);
    if (wanted - made.length == 4)
        add_protected(some_variable());
}

static void add_random_node(void)
{
    unsigned kind = below(6);
    unsigned near = made.nodes < 8 || chance(20) ? made.nodes : 8;
    unsigned left = made.nodes - 1 - below(near);
    unsigned right = made.nodes - 1 - below(near);

    if (kind == 0)
        add_atom(some_atom());
    else if (kind == 1)
        add_abstraction(some_atom(), left);
    else if (kind == 2)
        add_application(below(2), left);
    else if (kind == 3)
        add_random_suspension(some_variable(), 6);
    else
        add_pair(left, right);
}

/* Nodes in any order over each other: shared parts, all forms. */
static void make_random_graph(void)
{
    unsigned wanted = 2 + below(MOST_NODES - 1);
    unsigned atoms = 1 + below(32);
    unsigned variables = 1 + below(64);
    unsigned equations;

    start(atoms, variables, chance(50) ? below(3000) : 100000);
    add_unit();
    while (made.nodes < wanted)
        add_random_node();
    for (equations = 1 + below(MOST_EQUATIONS); equations > 0; equations--) {
        unsigned left = below(made.nodes);
        unsigned right = chance(98) ? left : below(made.nodes);

        add_equation(left, right);
    }
    add_random_freshness(below(3));
}

typedef struct {
    const char *name;
    unsigned weight;
    void (*make)(void);
} Family;

static const Family large_families[] = {
    {"many-equations", 0, make_many_equations},
    {"large-sides", 0, make_large_sides},
    {"nested-pairs", 0, make_nested_pairs},
    {"shared-pairs", 0, make_shared_pairs},
    {"binding-chain", 0, make_binding_chain},
    {"exponential-bindings", 0, make_exponential_bindings},
    {"deep-abstractions", 0, make_deep_abstractions},
    {"many-facts", 0, make_many_facts},
    {"long-input", 0, make_long_input},
    {"random-graph", 0, make_random_graph}
};

enum { LARGE_COUNT = sizeof large_families / sizeof large_families[0] };

static void make_large(void)
{
    unsigned family = below(LARGE_COUNT);

    /* The slowest and the longest come less often. */
    if ((large_families[family].make == make_nested_pairs
         || large_families[family].make == make_long_input) && !chance(25))
        family = below(2);
    large_families[family].make();
}

/* ------------------------------------------------------------------------
 * Malformed problems
 * ------------------------------------------------------------------------ */

static size_t field_offsets[MADE_ROOM / 3 + 1];
static unsigned field_count;

static void find_fields(void)
{
    size_t offset = 0;

    field_count = 0;
    while (offset + 3 <= made.length) {
        field_offsets[field_count++] = offset;
        offset += 3 + two_bytes(made.bytes + offset + 1);
    }
}

static size_t body_length_at(size_t offset)
{
    return two_bytes(made.bytes + offset + 1);
}

/* Makes room for, or takes out, bytes at an offset. */
static void insert_bytes(size_t offset, size_t count)
{
    if (made.length + count > MADE_ROOM)
        return;
    memmove(made.bytes + offset + count, made.bytes + offset, made.length - offset);
    memset(made.bytes + offset, 0, count);
    made.length += count;
}

static void delete_bytes(size_t offset, size_t count)
{
    if (offset + count > made.length)
        count = made.length - offset;
    memmove(made.bytes + offset, made.bytes + offset + count,
            made.length - offset - count);
    made.length -= count;
}

static size_t some_field(void)
{
    find_fields();
    if (field_count > 1 && chance(95))
        return field_offsets[1 + below(field_count - 1)];
    return field_offsets[below(field_count)];
}

static void make_base(void)
{
    unsigned kind = below(10);

    if (kind == 0)
        make_large();
    else if (kind < 3)
        make_twins();
    else
        make_small();
}

static void cut_anywhere(void)
{
    made.length = below((unsigned)made.length + 1);
}

static void set_length_at(size_t offset, size_t length)
{
    made.bytes[offset + 1] = (unsigned char)(length >> 8);
    made.bytes[offset + 2] = (unsigned char)length;
}

static size_t some_wrong_length(size_t length)
{
    switch (below(7)) {
    case 0:
        return length + 1;
    case 1:
        return length > 0 ? length - 1 : 1;
    case 2:
        return length + 2;
    case 3:
        return below(8);
    case 4:
        return 64 + below(6);
    case 5:
        return below(65536);
    default:
        return length ^ 1;
    }
}

/* The body gets the new length too, or the next fields are read askew. */
static void change_length(void)
{
    size_t offset = some_field();
    size_t length = body_length_at(offset);
    size_t wanted = some_wrong_length(length);

    if (chance(75) && wanted < 100) {
        if (wanted > length)
            insert_bytes(offset + 3 + length, wanted - length);
        else
            delete_bytes(offset + 3 + wanted, length - wanted);
    }
    set_length_at(offset, wanted);
}

static unsigned some_tag(void)
{
    static const uint8_t tags[] = {0x00, 0x01, 0x02, 0x0F, 0x16, 0x1F, 0x23,
                                   0x2F, 0x31, 0x40, 0x41, 0x4E, 0xFF};

    return chance(70) ? tags[below(sizeof tags)] : below(256);
}

static void change_tag(void)
{
    size_t offset = some_field();

    made.bytes[offset] = (unsigned char)some_tag();
}

/* A field of any tag and any length, between two fields or at the end. */
static void insert_field(void)
{
    size_t offset = chance(30) ? made.length : some_field();
    unsigned tag = chance(50) ? some_tag() : 0x10 + below(6);
    size_t length = below(8);
    size_t i;

    insert_bytes(offset, 3 + length);
    made.bytes[offset] = (unsigned char)tag;
    set_length_at(offset, length);
    for (i = 0; i < length; i++)
        made.bytes[offset + 3 + i] = (unsigned char)below(4);
}

static void insert_second_head(void)
{
    size_t offset = chance(30) ? made.length : some_field();
    size_t length = chance(70) ? 6 : below(9);

    insert_bytes(offset, 3 + length);
    made.bytes[offset] = TAG_HEAD;
    set_length_at(offset, length);
}

/* Where in a body a name of one byte or of two bytes stands. */
static int find_name(unsigned tag, size_t length, size_t *offset)
{
    *offset = 0;
    switch (tag) {
    case TAG_ATOM:
    case TAG_PROTECTED:
        return 1;
    case TAG_ASSUMPTION:
        *offset = below(2);
        return 1;
    case TAG_ABSTRACTION:
    case TAG_FRESHNESS:
        *offset = below(2);
        return *offset == 0 ? 1 : 2;
    case TAG_SUSPENSION:
        *offset = below((unsigned)length);
        return 1;
    case TAG_PAIR:
    case TAG_EQUATION:
        *offset = 2 * below(2);
        return 2;
    case TAG_APPLICATION:
        *offset = 2;
        return 2;
    default:
        return 0;
    }
}

static unsigned nodes_before(size_t wanted)
{
    unsigned count = 0;
    unsigned i;

    for (i = 1; i < field_count && field_offsets[i] < wanted; i++)
        if (made.bytes[field_offsets[i]] >= TAG_UNIT
            && made.bytes[field_offsets[i]] <= TAG_SUSPENSION)
            count++;
    return count;
}

/* A name that is just not there, or far from being there. */
static void change_name(void)
{
    size_t field = some_field();
    size_t offset;
    int bytes = find_name(made.bytes[field], body_length_at(field), &offset);
    unsigned char *name = made.bytes + field + 3 + offset;
    unsigned far = chance(40) ? below(250) : 0;

    if (bytes == 1)
        name[0] = (unsigned char)((chance(50) ? made.atoms : made.variables) + far);
    if (bytes == 2) {
        unsigned number = nodes_before(field) + far * (far & 1 ? 1 : 200);

        name[0] = (unsigned char)(number >> 8);
        name[1] = (unsigned char)number;
    }
}

/* One field of the kind, sometimes with a name that is not there. */
static void add_last_field(unsigned kind)
{
    if (kind == 0)
        add_equation(0, chance(50) ? 0 : 65535);
    else if (kind == 1)
        add_freshness(chance(50) ? 0 : 255, 0);
    else if (kind == 2)
        add_pair(chance(50) ? 0 : 600, 0);
    else
        add_unit();
}

/* A field after the last one that is allowed, sometimes of a wrong length. */
static void add_one_too_many(void)
{
    unsigned kind = below(4);
    size_t last;

    if (made.nodes == 0)
        add_unit();
    if (kind == 0)
        while (made.equations < MOST_EQUATIONS)
            add_equation(0, 0);
    else if (kind == 1 && made.atoms > 0)
        while (made.freshness_fields < MOST_FRESHNESS_FIELDS)
            add_freshness(0, 0);
    else
        while (!nodes_are_full())
            add_unit();
    made.nodes = made.equations = made.freshness_fields = 0;
    last = made.length;
    add_last_field(kind);
    if (chance(25)) {
        put(0);
        set_length_at(last, made.length - last - 3);
    }
}

/* A suspension whose length is at the edge of what is allowed. */
static void add_edge_suspension(void)
{
    static const uint8_t lengths[] = {0, 2, 64, 65, 66, 67, 69};
    unsigned length = lengths[below(sizeof lengths)];

    put_field(TAG_SUSPENSION, length);
    for (; length > 0; length--)
        put(0);
}

static void make_too_long(void)
{
    size_t wanted = MOST_BYTES + 1 + (chance(50) ? 0 : below(3000));

    while (made.length < wanted) {
        if (made.variables > 0 && chance(90))
            add_protected(0);
        else
            put(below(256));
    }
    if (chance(20))
        made.bytes[0] = 0;
}

static void spoil_head(void)
{
    static const uint8_t lengths[] = {0, 5, 7, 12, 255};

    switch (below(6)) {
    case 0:
        made.bytes[3] = (unsigned char)(33 + (chance(50) ? 0 : below(223)));
        break;
    case 1:
        made.bytes[4] = (unsigned char)(65 + (chance(50) ? 0 : below(191)));
        break;
    case 2:
        made.bytes[2] = lengths[below(sizeof lengths)];
        break;
    case 3:
        made.bytes[0] = (unsigned char)some_tag();
        break;
    case 4:
        delete_bytes(0, 9);
        break;
    default:
        made.length = below(10);
    }
}

/* Two faults in one field: the tag and something else of it, or the length and
 * the end of the input. */
static void spoil_field_twice(void)
{
    size_t offset = some_field();
    size_t length = body_length_at(offset);

    switch (below(4)) {
    case 0:
        made.bytes[offset] = (unsigned char)some_tag();
        made.length = offset + 1 + below((unsigned)length + 2);
        break;
    case 1:
        made.bytes[offset] = (unsigned char)some_tag();
        set_length_at(offset, some_wrong_length(length));
        break;
    case 2:
        set_length_at(offset, length + 2);
        insert_bytes(offset + 3 + length, 2);
        memset(made.bytes + offset + 3, 255, length + 2);
        break;
    default:
        memset(made.bytes + offset + 3, 255, length);
        if (chance(50))
            made.bytes[offset] = (unsigned char)(0x10 + below(6));
    }
}

static void make_malformed(void)
{
    unsigned kind = below(40);

    make_base();
    if (kind == 0)
        make_too_long();
    else if (kind < 8)
        cut_anywhere();
    else if (kind < 13)
        change_length();
    else if (kind < 16)
        change_tag();
    else if (kind < 18)
        insert_field();
    else if (kind < 19)
        add_edge_suspension();
    else if (kind < 21)
        insert_second_head();
    else if (kind < 28)
        change_name();
    else if (kind < 32)
        add_one_too_many();
    else if (kind < 36)
        spoil_head();
    else
        spoil_field_twice();
}

/* ------------------------------------------------------------------------
 * The reader's edges
 * ------------------------------------------------------------------------ */

/* The longest input that is read, or one byte more, with or without a good head. */
static void make_longest(size_t wanted)
{
    unsigned variables = 9 + below(56);

    start(1, variables, 100);
    add_random_suspension(some_variable(), 0);
    add_unit();
    add_equation(0, 1);
    /* Fields of five bytes until fields of four bytes reach the length. */
    while ((wanted - made.length) % 4 != 0)
        add_random_assumptions(1);
    while (made.length < wanted)
        add_protected(some_variable());
}

static void make_65535_bytes(void)
{
    make_longest(MOST_BYTES);
}

static void make_65536_bytes(void)
{
    make_longest(MOST_BYTES + 1);
    if (chance(70))
        made.bytes[0] = (unsigned char)some_tag();
}

static void make_33_atoms(void)
{
    make_base();
    made.bytes[3] = MOST_ATOMS + 1;
}

static void make_65_variables(void)
{
    make_base();
    made.bytes[4] = MOST_VARIABLES + 1;
}

/* A head that is too long by some bytes, which are there. */
static void make_long_head(void)
{
    unsigned more = 1 + below(3);

    make_base();
    insert_bytes(9, more);
    set_length_at(0, 6 + more);
}

/* No head, and cut short. */
static void make_cut_without_head(void)
{
    make_base();
    made.bytes[0] = (unsigned char)(chance(50) ? TAG_UNIT : some_tag());
    if (chance(50))
        made.length = 1 + below(8);
    else
        set_length_at(0, made.length);
}

static void make_second_head(void)
{
    make_base();
    insert_second_head();
}

/* A field after the last one that is allowed, which has another fault too. */
static void fill_and_spoil(int wrong_length)
{
    unsigned kind = below(3);
    size_t last;

    start(1, 1, 100);
    add_unit();
    while (kind == 0 && made.equations < MOST_EQUATIONS)
        add_equation(0, 0);
    while (kind == 1 && made.freshness_fields < MOST_FRESHNESS_FIELDS)
        add_freshness(0, 0);
    while (kind == 2 && !nodes_are_full())
        add_unit();
    made.nodes = made.equations = made.freshness_fields = 0;
    last = made.length;
    if (kind == 0)
        add_equation(0, wrong_length ? 0 : 600);
    else if (kind == 1)
        add_freshness(wrong_length ? 0 : 1, 0);
    else
        add_application(0, wrong_length ? 0 : 600);
    if (wrong_length) {
        put(0);
        set_length_at(last, made.length - last - 3);
    }
}

static void make_too_many_of_wrong_length(void)
{
    fill_and_spoil(1);
}

static void make_too_many_of_missing_names(void)
{
    fill_and_spoil(0);
}

/* A suspension of a length that is one or two bytes off, at the end of a problem. */
static void add_suspension_of_length(unsigned length)
{
    make_base();
    if (made.variables == 0 || made.atoms == 0)
        start(2, 2, 100);
    if (nodes_are_full())
        start(2, 2, 100);
    put_field(TAG_SUSPENSION, length);
    for (; length > 0; length--)
        put(0);
}

static void make_33_swaps(void)
{
    add_suspension_of_length(67);
}

static void make_half_a_swap(void)
{
    add_suspension_of_length(2 + 2 * below(32));
}

/* A swap of an atom that is just not there, in a suspension that matters. */
static void make_swap_of_missing_atom(void)
{
    uint8_t swaps[4] = {0, 0, 0, 0};
    unsigned atoms = 1 + below(MOST_ATOMS - 1);
    unsigned left;
    unsigned right;

    start(atoms, 1, 100);
    swaps[below(4)] = (uint8_t)atoms;
    left = add_suspension(0, swaps, 2);
    right = add_suspension(0, swaps, 0);
    add_equation(left, right);
}

/* Small problems with one field more, which names a node or a variable that is just
 * not there. */
static void make_missing_node(void)
{
    make_twins();
    add_equation(0, made.nodes + below(2));
}

static void make_missing_assumed(void)
{
    make_twins();
    add_assumption(0, made.variables);
}

static void make_missing_protected(void)
{
    make_twins();
    add_protected(made.variables);
}

static const Family edges[] = {
    {"65535-bytes", 0, make_65535_bytes},
    {"65536-bytes", 0, make_65536_bytes},
    {"33-atoms", 0, make_33_atoms},
    {"65-variables", 0, make_65_variables},
    {"long-head", 0, make_long_head},
    {"cut-without-head", 0, make_cut_without_head},
    {"second-head", 0, make_second_head},
    {"too-many-of-wrong-length", 0, make_too_many_of_wrong_length},
    {"too-many-of-missing-names", 0, make_too_many_of_missing_names},
    {"33-swaps", 0, make_33_swaps},
    {"half-a-swap", 0, make_half_a_swap},
    {"swap-of-missing-atom", 0, make_swap_of_missing_atom},
    {"missing-node", 0, make_missing_node},
    {"missing-assumed", 0, make_missing_assumed},
    {"missing-protected", 0, make_missing_protected}
};

enum { EDGE_COUNT = sizeof edges / sizeof edges[0] };

static void make_edges(void)
{
    edges[in_turn(EDGE_COUNT)].make();
}

/* ------------------------------------------------------------------------
 * Mutated problems
 * ------------------------------------------------------------------------ */

/* A copy of one field somewhere else: fields "come in any order". */
static void copy_field(void)
{
    unsigned char field[3 + 65535];
    size_t from = some_field();
    size_t length = 3 + body_length_at(from);
    size_t to;

    if (from + length > made.length)
        return;
    memcpy(field, made.bytes + from, length);
    if (chance(50))
        delete_bytes(from, length);
    to = made.length > 9 ? some_field() : made.length;
    if (made.length + length > MADE_ROOM)
        return;
    insert_bytes(to, length);
    memcpy(made.bytes + to, field, length);
}

static void mutate_once(void)
{
    unsigned offset = below((unsigned)made.length);

    switch (below(8)) {
    case 0:
        made.bytes[offset] = (unsigned char)below(256);
        break;
    case 1:
        made.bytes[offset]++;
        break;
    case 2:
        made.bytes[offset]--;
        break;
    case 3:
        made.bytes[offset] = (unsigned char)below(8);
        break;
    case 4:
        made.bytes[offset] ^= (unsigned char)(1u << below(8));
        break;
    case 5:
        delete_bytes(offset, 1);
        break;
    case 6:
        insert_bytes(offset, 1);
        made.bytes[offset] = (unsigned char)below(40);
        break;
    default:
        copy_field();
    }
}

/* A change of a body alone, so that the problem often stays readable. */
static void mutate_body(void)
{
    size_t field = some_field();
    size_t length = body_length_at(field);
    unsigned offset;

    if (length == 0 || field + 3 + length > made.length)
        return;
    offset = chance(70) ? (unsigned)length - 1 : below((unsigned)length);
    made.bytes[field + 3 + offset] = (unsigned char)below(chance(85) ? 3 : 40);
}

static void make_mutated(void)
{
    unsigned count = 1 + below(4);
    int bodies = chance(60);

    make_base();
    for (; count > 0 && made.length > 9; count--) {
        if (bodies)
            mutate_body();
        else
            mutate_once();
    }
}

/* ------------------------------------------------------------------------
 * The mix
 * ------------------------------------------------------------------------ */

static const Family families[] = {
    {"small", 17, make_small},
    {"twins", 10, make_twins},
    {"suspensions", 10, make_suspensions},
    {"values", 11, make_values},
    {"symbols", 4, make_symbols},
    {"cycles", 3, make_cycles},
    {"last-atom", 4, make_last_atom},
    {"protected", 5, make_protected},
    {"long-run", 2, make_long_run},
    {"large", 7, make_large},
    {"malformed", 3, make_malformed},
    {"edges", 21, make_edges},
    {"mutated", 3, make_mutated}
};

enum { FAMILY_COUNT = sizeof families / sizeof families[0] };

/* Of every 100 problems each family has as many as its weight. */
static void make_any(void)
{
    unsigned number = (unsigned)(turn % 100);
    unsigned family = 0;

    while (number >= families[family].weight) {
        number -= families[family].weight;
        family++;
    }
    turn = turn / 100 * families[family].weight + number;
    families[family].make();
}

/* A limit above the cap stays only if neither the solver nor the judge reaches
 * the cap. */
static void tame(void)
{
    static unsigned char answer[OUTPUT_ROOM];
    uint32_t limit;
    uint64_t place;

    if (made.length < 9)
        return;
    limit = four_bytes(made.bytes + 5);
    if (limit <= made.cap)
        return;
    set_limit(made.cap);
    if (solve(made.bytes, made.length, answer, sizeof answer, &place) == LIMIT_REACHED
        || judge(made.bytes, made.length, &place) == LIMIT_REACHED)
        return;
    set_limit(limit);
}

static void make_problem(void (*make)(void), uint64_t seed, uint64_t index)
{
    random_state = mixed(mixed(seed) + index);
    turn = index;
    term_count = 0;
    new_term(TAG_UNIT);
    make();
    tame();
}

static int write_problem(void)
{
    unsigned char length[4];

    length[0] = 0;
    length[1] = (unsigned char)(made.length >> 16);
    length[2] = (unsigned char)(made.length >> 8);
    length[3] = (unsigned char)made.length;
    return fwrite(length, 1, 4, stdout) == 4
        && fwrite(made.bytes, 1, made.length, stdout) == made.length;
}

static int write_stream(void (*make)(void), uint64_t seed, uint64_t count)
{
    uint64_t index;

    for (index = 0; index < count; index++) {
        make_problem(make, seed, index);
        if (!write_problem())
            return 2;
    }
    return fflush(stdout) == 0 ? 0 : 2;
}

/* ------------------------------------------------------------------------
 * The census
 * ------------------------------------------------------------------------ */

/* What the solver and the judge give back for the problem that was made. */
typedef struct {
    int numbers[2];
    uint64_t places[2];
    uint32_t steps;
    unsigned char answer[OUTPUT_ROOM];
} Outcome;

static void find_outcome(Outcome *outcome)
{
    outcome->numbers[0] = solve(made.bytes, made.length, outcome->answer,
                                sizeof outcome->answer, &outcome->places[0]);
    outcome->steps = run.steps;
    outcome->numbers[1] = judge(made.bytes, made.length, &outcome->places[1]);
}

static int outcomes_differ(const Outcome *one, const Outcome *other)
{
    return one->numbers[0] != other->numbers[0] || one->places[0] != other->places[0]
        || one->numbers[1] != other->numbers[1] || one->places[1] != other->places[1]
        || (one->numbers[0] == ACCEPTED
            && memcmp(one->answer, other->answer, (size_t)one->places[0]) != 0);
}

static int is_readable(const Outcome *outcome)
{
    return outcome->numbers[0] == ACCEPTED || outcome->numbers[0] > NAME_NOT_THERE;
}

/* Changes that take something out of a readable problem: if the outcome is another
 * one then, that thing mattered. */
static uint32_t made_limit(void)
{
    return four_bytes(made.bytes + 5);
}

static void take_high_limit(void)
{
    set_limit(made_limit() & 65535);
}

static void take_highest_limit_byte(void)
{
    set_limit(made_limit() & 16777215);
}

static void take_limits_from_2_31_up(void)
{
    if (made_limit() >= UINT32_C(0x80000000))
        set_limit(0);
}

/* Takes out the protected fields of variables from a first one up. */
static void take_protection_from(unsigned first)
{
    unsigned i;

    find_fields();
    for (i = field_count; i-- > 1;)
        if (made.bytes[field_offsets[i]] == TAG_PROTECTED
            && made.bytes[field_offsets[i] + 3] >= first)
            delete_bytes(field_offsets[i], 4);
}

static void take_protection_from_8_up(void)
{
    take_protection_from(8);
}

static void take_protection_from_32_up(void)
{
    take_protection_from(32);
}

static void take_protection_of_63(void)
{
    take_protection_from(63);
}

/* Clears one byte of every field of a tag. */
static void clear_byte(unsigned tag, size_t offset)
{
    unsigned i;

    find_fields();
    for (i = 1; i < field_count; i++)
        if (made.bytes[field_offsets[i]] == tag)
            made.bytes[field_offsets[i] + 3 + offset] = 0;
}

static void take_low_symbol_bytes(void)
{
    clear_byte(TAG_APPLICATION, 1);
}

static void take_high_symbol_bytes(void)
{
    clear_byte(TAG_APPLICATION, 0);
}

static void take_high_node_bytes(void)
{
    clear_byte(TAG_EQUATION, 0);
    clear_byte(TAG_EQUATION, 2);
}

/* Atom 31 becomes atom 30, wherever an atom stands. */
static void take_atom_31(void)
{
    unsigned i;

    find_fields();
    for (i = 1; i < field_count; i++) {
        unsigned char *field = made.bytes + field_offsets[i];
        size_t first = field[0] == TAG_SUSPENSION ? 1 : 0;
        size_t last = field[0] == TAG_SUSPENSION ? body_length_at(field_offsets[i]) : 1;
        size_t place;

        if (field[0] != TAG_ATOM && field[0] != TAG_ABSTRACTION && field[0] != TAG_SUSPENSION
            && field[0] != TAG_FRESHNESS && field[0] != TAG_ASSUMPTION)
            continue;
        for (place = first; place < last; place++)
            if (field[3 + place] == MOST_ATOMS - 1)
                field[3 + place] = MOST_ATOMS - 2;
    }
}

static const struct {
    const char *name;
    void (*take)(void);
} matters[] = {
    {"the limit's two high bytes", take_high_limit},
    {"the limit's highest byte", take_highest_limit_byte},
    {"limits from 2^31 up", take_limits_from_2_31_up},
    {"protection of variables from 8 up", take_protection_from_8_up},
    {"protection of variables from 32 up", take_protection_from_32_up},
    {"protection of variable 63", take_protection_of_63},
    {"symbols' low byte", take_low_symbol_bytes},
    {"symbols' high byte", take_high_symbol_bytes},
    {"the high byte of an equation's nodes", take_high_node_bytes},
    {"atom 31", take_atom_31}
};

enum { MATTERS_COUNT = sizeof matters / sizeof matters[0] };

static struct {
    unsigned long by_solver[DOES_NOT_HOLD + 1];
    unsigned long by_judge[DOES_NOT_HOLD + 1];
    unsigned long mattered[MATTERS_COUNT];
    unsigned long steps_over_65535;
} census;

static void count_problem(void)
{
    static unsigned char kept[MADE_ROOM];
    static Outcome outcome;
    static Outcome changed_outcome;
    size_t length = made.length;
    unsigned i;

    find_outcome(&outcome);
    census.by_solver[outcome.numbers[0]]++;
    census.by_judge[outcome.numbers[1]]++;
    if (outcome.numbers[0] == ACCEPTED && outcome.steps > 65535)
        census.steps_over_65535++;
    if (!is_readable(&outcome))
        return;
    memcpy(kept, made.bytes, length);
    for (i = 0; i < MATTERS_COUNT; i++) {
        matters[i].take();
        if (made.length != length || memcmp(kept, made.bytes, length) != 0) {
            find_outcome(&changed_outcome);
            census.mattered[i] += (unsigned)outcomes_differ(&outcome, &changed_outcome);
        }
        memcpy(made.bytes, kept, length);
        made.length = length;
    }
}

/* Prints a count; 1 if it is less than one of 100. */
static int print_count(const char *name, unsigned long found, uint64_t count)
{
    int few = found * 100 < count;

    fprintf(stderr, "%s: %lu%s\n", name, found, few ? ", TOO FEW" : "");
    return few;
}

static int take_census(uint64_t seed, uint64_t count)
{
    static const int solver_numbers[] = {0, 1, 2, 3, 4, 5, 6, 7, 8, 9, 10, 11, 12};
    static const int judge_numbers[] = {0, 1, 2, 3, 4, 5, 6, 7, 8, 14};
    char name[40];
    uint64_t index;
    int few = 0;
    size_t i;

    for (index = 0; index < count; index++) {
        make_problem(make_any, seed, index);
        count_problem();
    }
    for (i = 0; i < sizeof solver_numbers / sizeof solver_numbers[0]; i++) {
        sprintf(name, "solver %d", solver_numbers[i]);
        few |= print_count(name, census.by_solver[solver_numbers[i]], count);
    }
    for (i = 0; i < sizeof judge_numbers / sizeof judge_numbers[0]; i++) {
        sprintf(name, "judge %d", judge_numbers[i]);
        few |= print_count(name, census.by_judge[judge_numbers[i]], count);
    }
    few |= print_count("step counts over 65,535, printed", census.steps_over_65535, count);
    for (i = 0; i < MATTERS_COUNT; i++)
        few |= print_count(matters[i].name, census.mattered[i], count);
    if (count == 0)
        fputs("no problems\n", stderr);
    return few || count == 0;
}

static void (*find_family(const char *name))(void)
{
    size_t i;

    for (i = 0; i < FAMILY_COUNT; i++)
        if (strcmp(name, families[i].name) == 0)
            return families[i].make;
    for (i = 0; i < LARGE_COUNT; i++)
        if (strcmp(name, large_families[i].name) == 0)
            return large_families[i].make;
    for (i = 0; i < EDGE_COUNT; i++)
        if (strcmp(name, edges[i].name) == 0)
            return edges[i].make;
    return NULL;
}

int main(int argument_count, char **arguments)
{
    void (*make)(void) = make_any;
    int first = 1;

    if (argument_count == 4 && strcmp(arguments[1], "--census") == 0)
        return take_census(strtoull(arguments[2], NULL, 10),
                           strtoull(arguments[3], NULL, 10));
    if (argument_count == 5 && strcmp(arguments[1], "--family") == 0) {
        make = find_family(arguments[2]);
        first = 3;
    }
    if (make == NULL || argument_count != first + 2) {
        fputs("usage: generate SEED COUNT | --family NAME SEED COUNT"
              " | --census SEED COUNT\n", stderr);
        return 2;
    }
    return write_stream(make, strtoull(arguments[first], NULL, 10),
                        strtoull(arguments[first + 1], NULL, 10));
}
