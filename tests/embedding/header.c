/*
 * What the header does by itself, printed: the names of the numbers with their
 * messages, the versions, what the builder refuses, and bytes that the iterator
 * takes for an answer or refuses. tests/embedding/header.expected is what has to
 * come out.
 */
#include <stdio.h>

#include "cheesetrestle.h"

static uint8_t bytes[CHEESETRESTLE_PROBLEM_ROOM + 1];
static struct cheesetrestle_problem p;

static void print_numbers(void)
{
    uint32_t number;

#define SAY(name) printf(#name " %d\n", CHEESETRESTLE_##name)
    SAY(ACCEPTED), SAY(HOLDS), SAY(TOO_LONG), SAY(NO_HEAD), SAY(CUT), SAY(UNKNOWN_TAG), SAY(WRONG_LENGTH), SAY(TOO_MANY), SAY(NOT_THERE);
    SAY(LIMIT), SAY(CLASH), SAY(INSIDE), SAY(PROTECTED), SAY(NOT_FRESH), SAY(TOO_SHORT), SAY(DOES_NOT_HOLD), SAY(NO_ROOM);
    for (number = 0; number < 16; number++)
        printf("%u: %s\n", (unsigned)number, cheesetrestle_message(number));
    printf("255: %s\n", cheesetrestle_message(255));
    printf("number and place: %u %u\n", (unsigned)cheesetrestle_number(0x0000000D00004001u), (unsigned)cheesetrestle_place(0x0000000D00004001u));
    printf("versions: %s %d %u\n", CHEESETRESTLE_VERSION, CHEESETRESTLE_VERSION_NUMBER, (unsigned)cheesetrestle_version());
}

/* Two atoms, two variables, and node 0 a unit. */
static void begin(void)
{
    cheesetrestle_problem_begin(&p, bytes, sizeof bytes, 2, 2, 1);
    cheesetrestle_add_unit(&p);
}

/* A problem's fault; and that what comes after a fault is not added. */
static void say(const char *what)
{
    size_t length = p.length;
    unsigned fault = cheesetrestle_problem_fault(&p), node = cheesetrestle_add_unit(&p);

    cheesetrestle_add_equation(&p, 600, 600);
    if (fault != 0 && fault != CHEESETRESTLE_NO_ROOM)
        printf("%s: %u%s\n", what, fault, p.length == length && node == CHEESETRESTLE_NO_NODE && p.fault == fault ? "" : ", and more is added");
    else
        printf("%s: %u\n", what, fault);
}

static void build_names(void)
{
    static const uint8_t good[] = {0, 1}, bad[] = {0, 2};

    begin(), cheesetrestle_add_atom(&p, 1), say("the last atom");
    begin(), cheesetrestle_add_atom(&p, 2), say("an atom too high");
    begin(), cheesetrestle_add_atom(&p, 256), say("an atom whose low byte is one");
    begin(), cheesetrestle_add_abstraction(&p, 2, 0), say("an abstraction of no atom");
    begin(), cheesetrestle_add_abstraction(&p, 0, 1), say("an abstraction over itself");
    begin(), cheesetrestle_add_pair(&p, 1, 0), say("a pair of no left node");
    begin(), cheesetrestle_add_pair(&p, 0, 65536), say("a pair of no right node, whose low bytes are one");
    begin(), cheesetrestle_add_application(&p, 65535, 0), say("the last symbol");
    begin(), cheesetrestle_add_application(&p, 0, 1), say("an application to no node");
    begin(), cheesetrestle_add_suspension(&p, 1, good, 1), say("the last variable under a swap");
    begin(), cheesetrestle_add_suspension(&p, 2, NULL, 0), say("a suspension of no variable");
    begin(), cheesetrestle_add_suspension(&p, 0, bad, 1), say("a swap with no atom");
    begin(), cheesetrestle_add_equation(&p, 1, 0), say("an equation of no left node");
    begin(), cheesetrestle_add_equation(&p, 0, 1), say("an equation of no right node");
    begin(), cheesetrestle_add_freshness(&p, 2, 0), say("freshness of no atom");
    begin(), cheesetrestle_add_freshness(&p, 0, 1), say("freshness for no node");
    begin(), cheesetrestle_add_assumption(&p, 2, 0), say("an assumption of no atom");
    begin(), cheesetrestle_add_assumption(&p, 0, 2), say("an assumption for no variable");
    begin(), cheesetrestle_add_protected(&p, 2), say("protection of no variable");
}

static void nearly_full(void)
{
    int i;

    for (begin(), i = 0; i < 13103; i++)
        cheesetrestle_add_assumption(&p, 0, 0);
}

static void build_limits(void)
{
    static const uint8_t swaps[66];
    int i;

    cheesetrestle_problem_begin(&p, bytes, sizeof bytes, 32, 64, 0), say("the largest head");
    cheesetrestle_problem_begin(&p, bytes, sizeof bytes, 33, 0, 0), say("33 atoms");
    cheesetrestle_problem_begin(&p, bytes, sizeof bytes, 0, 65, 0), say("65 variables");
    cheesetrestle_problem_begin(&p, bytes, sizeof bytes, 0, 0, 0), say("no atoms and no variables");
    begin(), cheesetrestle_add_suspension(&p, 0, swaps, 32), say("32 swaps");
    begin(), cheesetrestle_add_suspension(&p, 0, swaps, 33), say("33 swaps");
    begin(), cheesetrestle_add_suspension(&p, 0, NULL, (size_t)-1), say("more swaps than there are bytes");
    for (begin(), i = 1; i < 511; i++)
        cheesetrestle_add_unit(&p);
    printf("the last node is %u\n", cheesetrestle_add_unit(&p)), cheesetrestle_add_equation(&p, 511, 0), say("512 nodes");
    for (begin(), i = 1; i < 513; i++)
        cheesetrestle_add_pair(&p, 0, 0);
    say("513 nodes");
    for (begin(), i = 0; i < 65; i++)
        cheesetrestle_add_equation(&p, 0, 0);
    say("65 equations");
    for (begin(), i = 0; i < 65; i++)
        cheesetrestle_add_freshness(&p, 0, 0);
    say("65 freshness fields");
    nearly_full(), cheesetrestle_add_protected(&p, 0), cheesetrestle_add_protected(&p, 0), printf("%lu bytes: %u\n", (unsigned long)p.length, p.fault);
    cheesetrestle_add_protected(&p, 0), say("65,539 bytes");
    nearly_full(), cheesetrestle_add_suspension(&p, 0, swaps, 33), say("33 swaps where there is no room for them");
}

static void build_rooms(void)
{
    cheesetrestle_problem_begin(&p, NULL, 0, 1, 1, 0), cheesetrestle_add_unit(&p);
    printf("no room: %u, %lu bytes wanted\n", cheesetrestle_problem_fault(&p), (unsigned long)p.length);
    bytes[11] = 0xEE;
    cheesetrestle_problem_begin(&p, bytes, 11, 1, 1, 0), cheesetrestle_add_unit(&p);
    printf("a byte too little: %u, %lu bytes wanted, the next byte %02x\n", cheesetrestle_problem_fault(&p), (unsigned long)p.length, bytes[11]);
    cheesetrestle_problem_begin(&p, bytes, 12, 1, 1, 0xFEDCBA98u), cheesetrestle_add_unit(&p);
    printf("just enough: %u, the limit %02x%02x%02x%02x\n", cheesetrestle_problem_fault(&p), bytes[5], bytes[6], bytes[7], bytes[8]);
}

#define STEPS 0x4E, 0, 4, 0, 0, 0, 9
#define READ(what, ...) \
    do { \
        static const uint8_t some[] = {__VA_ARGS__}; \
        printf(what ": %d\n", cheesetrestle_answer_begin(&answer, some, sizeof some)); \
    } while (0)

static void read_answers(void)
{
    struct cheesetrestle_answer answer;

    printf("nothing: %d\n", cheesetrestle_answer_begin(&answer, NULL, 0));
    READ("steps", STEPS);
    READ("steps of five bytes", 0x4E, 0, 5, 0, 0, 0, 9, 0);
    READ("steps of three bytes", 0x4E, 0, 3, 0, 0, 9);
    READ("steps twice", STEPS, STEPS);
    READ("no steps", 0x41, 0, 2, 0, 0);
    READ("an unknown tag", STEPS, 0x42, 0, 2, 0, 0);
    READ("a high byte of a length", STEPS, 0x41, 1, 2, 0, 0);
    READ("a fact", STEPS, 0x41, 0, 2, 31, 63);
    READ("a fact of atom 32", STEPS, 0x41, 0, 2, 32, 0);
    READ("a fact of variable 64", STEPS, 0x41, 0, 2, 0, 64);
    READ("a fact of three bytes", STEPS, 0x41, 0, 3, 0, 0, 0);
    READ("a fact twice", STEPS, 0x41, 0, 2, 3, 4, 0x41, 0, 2, 3, 4);
    READ("facts by atom", STEPS, 0x41, 0, 2, 3, 4, 0x41, 0, 2, 4, 3);
    READ("facts by variable", STEPS, 0x41, 0, 2, 4, 3, 0x41, 0, 2, 3, 4);
    READ("a binding of no atoms", STEPS, 0x40, 0, 3, 63, 1, 255);
    READ("a binding of variable 64", STEPS, 0x40, 0, 3, 64, 0, 0);
    READ("a binding to node 512", STEPS, 0x40, 0, 3, 0, 2, 0);
    READ("a binding of two bytes", STEPS, 0x40, 0, 2, 0, 0);
    READ("a binding", STEPS, 0x40, 0, 5, 0, 0, 0, 1, 0);
    READ("an image that is no atom", STEPS, 0x40, 0, 5, 0, 0, 0, 1, 2);
    READ("an image twice", STEPS, 0x40, 0, 5, 0, 0, 0, 1, 1);
    READ("a variable bound twice", STEPS, 0x40, 0, 3, 7, 0, 0, 0x40, 0, 3, 7, 0, 0);
    READ("bindings of one and of two atoms", STEPS, 0x40, 0, 4, 0, 0, 0, 0, 0x40, 0, 5, 1, 0, 0, 0, 1);
    READ("33 images", STEPS, 0x40, 0, 36, 0, 0, 0, 0, 1, 2, 3, 4, 5, 6, 7, 8, 9, 10, 11, 12, 13, 14, 15, 16, 17, 18, 19, 20, 21, 22, 23, 24, 25,
         26, 27, 28, 29, 30, 31, 32);
    READ("32 images", STEPS, 0x40, 0, 35, 0, 0, 0, 1, 2, 3, 4, 5, 6, 7, 8, 9, 10, 11, 12, 13, 14, 15, 16, 17, 18, 19, 20, 21, 22, 23, 24, 25, 26,
         27, 28, 29, 30, 31, 0);
    READ("a binding behind a fact", STEPS, 0x41, 0, 2, 0, 0, 0x40, 0, 4, 1, 0, 0, 0);
    READ("a fact of a bound variable", STEPS, 0x40, 0, 4, 1, 0, 0, 0, 0x41, 0, 2, 0, 1);
    READ("a fact of an atom that has no image", STEPS, 0x40, 0, 4, 1, 0, 0, 0, 0x41, 0, 2, 1, 0);
    READ("a fact of an atom that has one", STEPS, 0x40, 0, 4, 1, 0, 0, 0, 0x41, 0, 2, 0, 0);
}

int main(void)
{
    print_numbers();
    build_names();
    build_limits();
    build_rooms();
    read_answers();
    return 0;
}
