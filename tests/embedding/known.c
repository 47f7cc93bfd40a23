/*
 * Answers a stream of problems as the program `stream` does, through the archive
 * and the header, so that tests/check.py can hold it to the known answers:
 *
 *   - each problem in every entry, plain, with each table lent by itself and with
 *     the struct, all between guards: everything ends before one, then everything
 *     begins behind one. All give the same, and write the same answer alone;
 *   - each accepted problem with every output that is too short, and with one
 *     that is just long enough;
 *   - answers read by the iterator, whole, cut after every byte and with every
 *     byte changed; problems built again by the builder.
 *
 * With the word --whole it leaves out the rooms, the cuts and the changes, of which
 * a long answer has many. On standard error it says how much of each it did. A
 * difference ends it.
 */
#include <string.h>

#include "cheesetrestle.h"
#include "guarded.h"

/* How something stands in guarded memory. */
enum standing { BEFORE_A_GUARD, BEHIND_A_GUARD, STANDINGS };

static uint8_t *lent(struct guarded from, size_t size, enum standing standing)
{
    return standing == BEFORE_A_GUARD ? from.end - size : from.first;
}

enum entry { PLAIN, EACH_TABLE, THE_STRUCT, ENTRIES };
enum { UNTOUCHED = 0xC3, BEHIND = 64 };

/* The tables in the order in which the archive takes them. */
#define TABLES(DO) \
    DO(places) DO(assumed) DO(node_variables) DO(heads) DO(images) DO(made) DO(values) DO(asked) DO(firsts) DO(marks)
#define SIZE_OF(table) sizeof(((struct cheesetrestle_tables *)0)->table)

/* Each table by itself, and all as the struct, in one standing. */
#define POINTER(table) void *table;
struct lendings {
    TABLES(POINTER)
    struct cheesetrestle_tables *tables;
};

static struct lendings lendings[STANDINGS];
static struct guarded input_memory, output_memory;
static uint8_t pattern[CHEESETRESTLE_ANSWER_ROOM + BEHIND];
static int whole_only;
static unsigned long problems, rooms, cuts, changes, rebuilt, refused_to_build;

static void lend(enum standing standing)
{
    struct lendings *all = &lendings[standing];

#define LEND(table) all->table = lent(guarded(SIZE_OF(table)), SIZE_OF(table), standing);
    TABLES(LEND)
    all->tables = (struct cheesetrestle_tables *)(void *)lent(guarded(sizeof *all->tables), sizeof *all->tables, standing);
}

/* "Whatever the tables hold": another content for each problem. */
static void fill(unsigned long turn)
{
    static const uint8_t contents[] = {0x00, 0xFF, 0xA5, 0x5A};
    int content = contents[turn % sizeof contents], standing;

    for (standing = 0; standing < STANDINGS; standing++) {
        struct lendings *all = &lendings[standing];

#define FILL(table) memset(all->table, content, SIZE_OF(table));
        TABLES(FILL)
        memset(all->tables, content, sizeof *all->tables);
    }
}

static uint64_t solve(const uint8_t *input, size_t length, uint8_t *output, size_t room, enum entry entry, enum standing standing)
{
    struct lendings *t = &lendings[standing];

    if (entry == PLAIN)
        return cheesetrestle_solve(input, length, output, room);
    if (entry == THE_STRUCT)
        return cheesetrestle_solve_lent(input, length, output, room, t->tables);
    return cheesetrestle_solve_with(
        input, length, output, room, t->places, t->assumed, t->node_variables, t->heads, t->images, t->made, t->values, t->asked,
        t->firsts, t->marks);
}

static uint64_t judge(const uint8_t *input, size_t length, enum entry entry, enum standing standing)
{
    struct lendings *t = &lendings[standing];

    if (entry == PLAIN)
        return cheesetrestle_judge(input, length);
    if (entry == THE_STRUCT)
        return cheesetrestle_judge_lent(input, length, t->tables);
    return cheesetrestle_judge_with(
        input, length, t->places, t->assumed, t->node_variables, t->heads, t->images, t->made, t->values, t->asked, t->firsts,
        t->marks);
}

static const uint8_t *lent_input(const uint8_t *problem, size_t length, enum standing standing)
{
    return memcpy(lent(input_memory, length, standing), problem, length);
}

/* An output of the given room, in which every byte that is not written is known, and a little behind it. */
static uint8_t *lent_output(size_t room, enum standing standing)
{
    uint8_t *output = lent(output_memory, room, standing);

    return memcpy(output, pattern, room + (standing == BEHIND_A_GUARD ? BEHIND : 0));
}

/* Stops unless what was given is right and the output holds the answer, if there is one, and is untouched else. */
static void expect(uint64_t given, uint64_t right, const uint8_t *output, size_t room, const uint8_t *answer, enum standing standing)
{
    size_t written = cheesetrestle_number(right) == CHEESETRESTLE_ACCEPTED ? cheesetrestle_place(right) : 0;
    size_t known = room + (standing == BEHIND_A_GUARD ? BEHIND : 0);

    if (given != right)
        stop("the entries, or the rooms, give different numbers or places");
    if (memcmp(output, answer, written) != 0)
        stop("the entries write different answers");
    if (memcmp(output + written, pattern + written, known - written) != 0)
        stop("an output is touched behind the answer or by a refusal");
}

/* Every entry in every standing, with an output that is always enough. Keeps the first answer. */
static uint64_t solve_everywhere(const uint8_t *problem, size_t length, uint8_t *answer)
{
    int standing, entry;
    uint64_t right = 0;

    for (standing = 0; standing < STANDINGS; standing++) {
        const uint8_t *input = lent_input(problem, length, standing);

        for (entry = 0; entry < ENTRIES; entry++) {
            uint8_t *output = lent_output(CHEESETRESTLE_ANSWER_ROOM, standing);
            uint64_t given = solve(input, length, output, CHEESETRESTLE_ANSWER_ROOM, entry, standing);

            if (standing == 0 && entry == 0) {
                right = given;
                memcpy(answer, output, CHEESETRESTLE_ANSWER_ROOM);
            }
            expect(given, right, output, CHEESETRESTLE_ANSWER_ROOM, answer, standing);
            if (length == 0 && solve(NULL, 0, output, CHEESETRESTLE_ANSWER_ROOM, entry, standing) != right)
                stop("an empty input gives something else where its pointer is null");
        }
    }
    return right;
}

static uint64_t judge_everywhere(const uint8_t *problem, size_t length)
{
    uint64_t right = 0, given;
    int standing, entry;

    for (standing = 0; standing < STANDINGS; standing++) {
        const uint8_t *input = lent_input(problem, length, standing);

        for (entry = 0; entry < ENTRIES; entry++) {
            given = judge(input, length, entry, standing);
            if (standing == 0 && entry == 0)
                right = given;
            if (given != right || (length == 0 && judge(NULL, 0, entry, standing) != right))
                stop("the judges differ");
        }
    }
    return right;
}

/* An accepted problem with every room up to its answer's length: 13 and the length, until it fits. */
static void try_rooms(const uint8_t *problem, size_t length, uint64_t accepted, const uint8_t *answer)
{
    size_t wanted = cheesetrestle_place(accepted), room;
    uint64_t too_short = (uint64_t)CHEESETRESTLE_TOO_SHORT << 32 | wanted;
    int standing, entry;

    for (standing = 0; standing < STANDINGS; standing++) {
        const uint8_t *input = lent_input(problem, length, standing);

        for (room = 0; room <= wanted; room++)
            for (entry = standing == 0 ? PLAIN : EACH_TABLE; entry < ENTRIES; entry++) {
                uint8_t *output = lent_output(room, standing);

                expect(solve(input, length, output, room, entry, standing), room < wanted ? too_short : accepted, output, room, answer, standing);
                if (room == 0 && solve(input, length, NULL, 0, entry, standing) != too_short)
                    stop("an output of no bytes gives something else where its pointer is null");
                rooms++;
            }
    }
}

/* Stops unless all that a field names is within the limits, so that a caller may index tables by it. */
static void within_limits(const struct cheesetrestle_field *field)
{
    size_t i;

    if (field->variable >= 64 || field->atom >= 32 || field->node >= 512 || field->atoms > 32)
        stop("the iterator gives a name that no problem has");
    for (i = 0; i < field->atoms; i++)
        if (field->images[i] >= field->atoms)
            stop("the iterator gives an image that is no atom");
}

/* Whether the bytes are taken for an answer; they stand before a guard. */
static int taken(const uint8_t *bytes, size_t length)
{
    uint8_t *copy = memcpy(lent(output_memory, length, BEFORE_A_GUARD), bytes, length);
    struct cheesetrestle_answer answer;
    struct cheesetrestle_field field;
    int is_answer = cheesetrestle_answer_begin(&answer, copy, length), fields = 0;

    while (cheesetrestle_answer_next(&answer, &field)) {
        within_limits(&field);
        fields++;
    }
    if (is_answer != (fields > 0) || (is_answer && answer.rest != copy + length))
        stop("the iterator ends before the end, or gives fields of bytes that are no answer");
    return is_answer;
}

/* Cut after each byte, an answer is one only where a field ends; and with a byte changed the iterator stays within bytes and limits. */
static void try_iterator(uint8_t *answer, size_t length)
{
    static const uint8_t masks[] = {0x01, 0x20, 0x80, 0xFF};
    size_t cut, end = 0, i;

    for (cut = 0; cut < length; cut++) {
        int whole = cut > 0 && cut == end;

        if (cut == end)
            end += 3 + (size_t)answer[cut + 2];
        if (taken(answer, cut) != whole)
            stop("the iterator takes an answer that is cut, or refuses one that is whole");
        cuts++;
        for (i = 0; i < sizeof masks; i++) {
            answer[cut] ^= masks[i];
            taken(answer, length);
            answer[cut] ^= masks[i];
            changes++;
        }
    }
}

static unsigned two(const uint8_t *at) { return (unsigned)at[0] << 8 | at[1]; }

/* A field given to the builder; 0 if the builder has no such field, as where its length is not that of its tag. */
static int build(struct cheesetrestle_problem *p, unsigned tag, const uint8_t *body, size_t size)
{
    if (tag == 0x10 && size == 0) cheesetrestle_add_unit(p);
    else if (tag == 0x11 && size == 1) cheesetrestle_add_atom(p, body[0]);
    else if (tag == 0x12 && size == 3) cheesetrestle_add_abstraction(p, body[0], two(body + 1));
    else if (tag == 0x13 && size == 4) cheesetrestle_add_pair(p, two(body), two(body + 2));
    else if (tag == 0x14 && size == 4) cheesetrestle_add_application(p, (uint16_t)two(body), two(body + 2));
    else if (tag == 0x15 && size % 2 == 1) cheesetrestle_add_suspension(p, body[0], body + 1, size / 2);
    else if (tag == 0x20 && size == 4) cheesetrestle_add_equation(p, two(body), two(body + 2));
    else if (tag == 0x21 && size == 3) cheesetrestle_add_freshness(p, body[0], two(body + 1));
    else if (tag == 0x22 && size == 2) cheesetrestle_add_assumption(p, body[0], body[1]);
    else if (tag == 0x30 && size == 1) cheesetrestle_add_protected(p, body[0]);
    else return 0;
    return 1;
}

/* The whole problem given to the builder, into so much room; 0 if it has a field that the builder does not have. */
static int build_all(struct cheesetrestle_problem *p, const uint8_t *problem, size_t length, size_t room)
{
    size_t at = 9, size;

    if (length < 9 || problem[0] != 0x01 || two(problem + 1) != 6)
        return 0;
    cheesetrestle_problem_begin(
        p, lent(input_memory, room, BEFORE_A_GUARD), room, problem[3], problem[4], (uint32_t)two(problem + 5) << 16 | two(problem + 7));
    for (; at < length; at += 3 + size) {
        if (length - at < 3)
            return 0;
        size = two(problem + at + 1);
        if (size > length - at - 3 || !build(p, problem[at], problem + at + 3, size))
            return 0;
    }
    return 1;
}

/* How much of a problem of whole fields the reader takes: as many fields as there is room for. */
static size_t fitting(const uint8_t *problem, size_t length)
{
    size_t at = 0, next = 0;

    while (next < length && next <= CHEESETRESTLE_PROBLEM_ROOM) {
        at = next;
        next += 3 + two(problem + at + 1);
    }
    return next <= CHEESETRESTLE_PROBLEM_ROOM ? next : at;
}

/* The number by which the builder must refuse: the reader's. It sees that a problem is too long at the first field for which there is no room, so a field at
 * fault before that one comes first. */
static unsigned builders_fault(const uint8_t *problem, size_t length)
{
    size_t taken = fitting(problem, length);
    unsigned number = cheesetrestle_number(cheesetrestle_judge(problem, taken));

    if (number >= CHEESETRESTLE_TOO_LONG && number <= CHEESETRESTLE_NOT_THERE)
        return number;
    return taken < length ? CHEESETRESTLE_TOO_LONG : 0;
}

/* The builder makes the same bytes of a problem that can be read, and refuses any other. */
static void rebuild(const uint8_t *problem, size_t length)
{
    struct cheesetrestle_problem p;
    unsigned refusal;

    if (!build_all(&p, problem, length, length))
        return;
    refusal = builders_fault(problem, length);
    if (cheesetrestle_problem_fault(&p) != refusal)
        stop("the builder finds another fault than the reader");
    refused_to_build += refusal != 0;
    if (refusal != 0)
        return;
    if (p.length != length || memcmp(p.bytes, problem, length) != 0)
        stop("the builder makes other bytes");
    build_all(&p, problem, length, length - 1);
    if (cheesetrestle_problem_fault(&p) != CHEESETRESTLE_NO_ROOM || p.length != length)
        stop("the builder does not see that the room is one byte short");
    rebuilt++;
}

static void print_answer(const uint8_t *bytes, size_t length)
{
    struct cheesetrestle_answer answer;
    struct cheesetrestle_field field;
    unsigned i;

    if (!cheesetrestle_answer_begin(&answer, bytes, length))
        stop("the iterator refuses an answer");
    while (cheesetrestle_answer_next(&answer, &field)) {
        if (field.tag == CHEESETRESTLE_STEPS)
            printf("accepted %lu", (unsigned long)field.steps);
        else if (field.tag == CHEESETRESTLE_FACT)
            printf("fresh %u %u", field.atom, field.variable);
        else
            printf("bind %u %u", field.variable, field.node);
        for (i = 0; i < field.atoms; i++)
            printf(" %u", field.images[i]);
        printf("\n");
    }
}

static void print_refusal(uint64_t given)
{
    printf("refused %lu %lu\n", (unsigned long)cheesetrestle_number(given), (unsigned long)cheesetrestle_place(given));
}

static void answer_one(const uint8_t *problem, size_t length)
{
    static uint8_t answer[CHEESETRESTLE_ANSWER_ROOM];
    uint64_t solved, judged;

    if (length > (size_t)(input_memory.end - input_memory.first))
        input_memory = guarded(length);
    fill(problems++);
    solved = solve_everywhere(problem, length, answer);
    judged = judge_everywhere(problem, length);
    if (cheesetrestle_number(solved) == CHEESETRESTLE_ACCEPTED) {
        print_answer(answer, cheesetrestle_place(solved));
        if (!whole_only) {
            try_rooms(problem, length, solved, answer);
            try_iterator(answer, cheesetrestle_place(solved));
        }
    } else {
        print_refusal(solved);
    }
    if (cheesetrestle_number(judged) == CHEESETRESTLE_HOLDS)
        printf("holds\n\n");
    else
        print_refusal(judged), printf("\n");
    fflush(stdout); /* so that a fault shows behind which problem it came */
    rebuild(problem, length);
}

int main(int count, char **words)
{
    const uint8_t *problem;
    size_t length;
    int standing;

    whole_only = count > 1 && strcmp(words[1], "--whole") == 0;
    for (standing = 0; standing < STANDINGS; standing++)
        lend(standing);
    memset(pattern, UNTOUCHED, sizeof pattern);
    output_memory = guarded(sizeof pattern);
    input_memory = guarded(CHEESETRESTLE_PROBLEM_ROOM);
    while ((problem = next_problem(&length)) != NULL)
        answer_one(problem, length);
    fprintf(stderr, "problems %lu\nrooms %lu\ncuts %lu\nchanges %lu\nrebuilt %lu\nrefused %lu\n", problems, rooms, cuts, changes, rebuilt,
            refused_to_build);
    return 0;
}
