/*
 * How much stack each of the four entries takes on the problems of a stream: each
 * runs on a stack of its own, of exactly the size that the header states, above
 * memory that must not be touched. The stack is filled beforehand, and how far it
 * was written is printed at the end, a line for each entry: its name, the bytes
 * taken, the bytes that the header states. The last line has how many problems
 * there were.
 *
 *   stack <STREAM          on stacks of the stated size
 *   stack SIZE <STREAM     on stacks of SIZE bytes, to find out
 */
#include <string.h>
#include <ucontext.h>

#include "cheesetrestle.h"
#include "guarded.h"

enum { FILLED = 0x5C };

static struct cheesetrestle_tables tables;
static uint8_t output[CHEESETRESTLE_ANSWER_ROOM];
static const uint8_t *problem;
static size_t length;
static volatile uint64_t kept;

static void solve(void) { kept = cheesetrestle_solve(problem, length, output, sizeof output); }
static void judge(void) { kept = cheesetrestle_judge(problem, length); }
static void solve_lent(void) { kept = cheesetrestle_solve_lent(problem, length, output, sizeof output, &tables); }
static void judge_lent(void) { kept = cheesetrestle_judge_lent(problem, length, &tables); }

static struct entry {
    const char *name;
    void (*call)(void);
    size_t stated;
    struct guarded memory;
    uint8_t *lowest;
} entries[] = {
    {"solve", solve, CHEESETRESTLE_STACK, {NULL, NULL}, NULL},
    {"judge", judge, CHEESETRESTLE_STACK, {NULL, NULL}, NULL},
    {"solve_lent", solve_lent, CHEESETRESTLE_STACK_LENT, {NULL, NULL}, NULL},
    {"judge_lent", judge_lent, CHEESETRESTLE_STACK_LENT, {NULL, NULL}, NULL},
};
enum { ENTRIES = sizeof entries / sizeof *entries };

static void on_its_stack(struct entry *entry)
{
    ucontext_t here, there;

    if (getcontext(&there) != 0)
        stop("no context is to be had");
    there.uc_stack.ss_sp = entry->memory.first;
    there.uc_stack.ss_size = entry->stated;
    there.uc_link = &here;
    makecontext(&there, entry->call, 0);
    if (swapcontext(&here, &there) != 0)
        stop("the stack cannot be changed");
}

int main(int count, char **words)
{
    unsigned long problems = 0;
    struct entry *entry;

    for (entry = entries; entry < entries + ENTRIES; entry++) {
        if (count > 1)
            entry->stated = strtoul(words[1], NULL, 10);
        entry->memory = guarded(entry->stated);
        memset(entry->memory.first, FILLED, entry->stated);
    }
    for (; (problem = next_problem(&length)) != NULL; problems++)
        for (entry = entries; entry < entries + ENTRIES; entry++)
            on_its_stack(entry);
    for (entry = entries; entry < entries + ENTRIES; entry++) {
        for (entry->lowest = entry->memory.first; *entry->lowest == FILLED; entry->lowest++)
            ;
        printf("%s %lu %lu\n", entry->name, (unsigned long)(entry->memory.first + entry->stated - entry->lowest), (unsigned long)entry->stated);
    }
    printf("problems %lu\n", problems);
    return 0;
}
