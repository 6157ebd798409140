/* A first program on the bead index: three parties share one file and take turns.
 *
 * Slicing inserts the beads of a wall, each with its nozzle setting, preview looks some up, export deletes those that
 * it has written out. Nobody waits for another's operation to end: main goes round and gives each party one call at a
 * time, so that operations overlap, and the index keeps them apart by its locks. The program prints each answer as it
 * comes, and who waits.
 *
 * Build and run it from the root of the repository:
 *     library=$(tests/staticlib) && cc -std=c11 -Iinclude examples/first.c "$library" -o first && ./first */
#include <stdbool.h>
#include <stdint.h>
#include <stdio.h>

#include "bead_index.h"

/* The sizes: one chain at first and four at most, two beads a page, eight overflow pages, three parties. */
enum { N = 1, B = 2, P = 4, V = 8, Q = 3 };

/* The memory that the index is lent, which is all that it has. The same nine arguments go to every call. */
static struct bead_root root;
static struct bead_party parties[BEAD_PARTY_ROW(Q)];
static uint32_t locks[BEAD_LOCK_ROW(P)];
static uint32_t pages[BEAD_PAGE_ROW(P, V, Q)];
static uint32_t row[BEAD_ROW(Q)];
#define LENT \
    &root, parties, BEAD_PARTY_ROW(Q), locks, BEAD_LOCK_ROW(P), pages, BEAD_PAGE_ROW(P, V, Q), row, BEAD_ROW(Q)

/* One operation: what is asked, of which bead, and the answer that must come; the nozzle setting is the one that an
 * insert brings, or that a find must answer. */
struct task {
    uint32_t operation, bead, expected, setting;
};

/* Preview asks for bead 3 while slicing is still inserting it. The index answers as if each operation happened at one
 * moment between its begin and its answer: here the first find comes before the insert, and the second after it. Bead 8
 * is inserted twice, and keeps the setting of the first time. */
static const struct task slicing[] = {
    {BEAD_INSERT, 3, BEAD_INSERTED, 40},  {BEAD_INSERT, 8, BEAD_INSERTED, 40}, {BEAD_INSERT, 13, BEAD_INSERTED, 45},
    {BEAD_INSERT, 21, BEAD_INSERTED, 60}, {BEAD_INSERT, 8, BEAD_PRESENT, 45},  {BEAD_INSERT, 34, BEAD_INSERTED, 60},
};
static const struct task preview[] = {
    {BEAD_FIND, 3, BEAD_ABSENT, 0},  {BEAD_FIND, 3, BEAD_FOUND, 40},  {BEAD_FIND, 8, BEAD_FOUND, 40},
    {BEAD_FIND, 99, BEAD_ABSENT, 0}, {BEAD_FIND, 13, BEAD_FOUND, 45}, {BEAD_FIND, 99, BEAD_ABSENT, 0},
    {BEAD_FIND, 21, BEAD_FOUND, 60}, {BEAD_FIND, 8, BEAD_FOUND, 40},
};
static const struct task exporting[] = {
    {BEAD_DELETE, 55, BEAD_ABSENT, 0},  {BEAD_DELETE, 34, BEAD_ABSENT, 0},  {BEAD_DELETE, 3, BEAD_DELETED, 0},
    {BEAD_DELETE, 13, BEAD_DELETED, 0}, {BEAD_DELETE, 21, BEAD_DELETED, 0},
};

/* A party of the program: its tasks in order, the one it is at, and how far that one is. */
struct worker {
    const char *name;
    const struct task *tasks;
    size_t many, at;
    bool begun, waits;
};
#define TASKS(list) list, sizeof list / sizeof list[0], 0, false, false
static struct worker workers[Q] = {
    {"slicing", TASKS(slicing)},
    {"preview", TASKS(preview)},
    {"export", TASKS(exporting)},
};

/* The numbers of include/bead_index.h in plain words. */
static const char *const operation_words[] = {"nothing", "find", "insert", "delete"};
static const char *const answer_words[] = {"no answer", "inserted",         "there already", "deleted",
                                           "not there", "no page was free", "found"};
static const char *const restructuring_words[] = {"", ", and a chain was split", ", a split was skipped",
                                                  ", and two chains were merged", ", a merge was skipped"};

/* Prints the line of a party's task up to what came of it: "slicing: insert 3 with setting 40: inserted". */
static void tell(const struct worker *worker, const char *what)
{
    const struct task *task = &worker->tasks[worker->at];
    printf("%s: %s %u", worker->name, operation_words[task->operation], (unsigned)task->bead);
    if (task->operation == BEAD_INSERT)
        printf(" with setting %u", (unsigned)task->setting);
    printf(": %s", what);
}

/* Begins a party's task. False where the index refuses: this program gives it no cause to. */
static bool begin(uint32_t party)
{
    struct worker *worker = &workers[party];
    const struct task *task = &worker->tasks[worker->at];
    worker->begun = bead_begin(LENT, party, task->operation, task->bead, task->setting) == BEAD_OK;
    return worker->begun;
}

/* Performs one step of a party's task. A step that waits is simply tried again at the next turn: the index keeps the
 * party's place among those who wait. It is told once. False where the step is refused, or the answer or a setting
 * found is not the expected one. */
static bool step(uint32_t party)
{
    struct worker *worker = &workers[party];
    struct bead_reply reply = bead_step(LENT, party);
    if (reply.refusal != BEAD_OK)
        return false;
    bool waited = worker->waits;
    worker->waits = reply.outcome == BEAD_WAITING;
    if (worker->waits && !waited)
        tell(worker, "waits\n");
    if (reply.outcome != BEAD_DONE)
        return true;
    tell(worker, answer_words[reply.answer]);
    if (reply.answer == BEAD_FOUND)
        printf(" with setting %u", (unsigned)reply.setting);
    puts(restructuring_words[reply.restructuring]);
    worker->begun = false;
    const struct task *task = &worker->tasks[worker->at++];
    return reply.answer == task->expected && (reply.answer != BEAD_FOUND || reply.setting == task->setting);
}

int main(void)
{
    if (bead_format(LENT, N, B, P, V, Q) != BEAD_OK) {
        puts("the file could not be made");
        return 1;
    }
    for (bool busy = true; busy;) {
        busy = false;
        for (uint32_t party = 0; party < Q; party++) {
            struct worker *worker = &workers[party];
            if (worker->at == worker->many)
                continue;
            busy = true;
            if (!(worker->begun ? step(party) : begin(party))) {
                printf("%s: that is not what should have come\n", worker->name);
                return 1;
            }
        }
    }
    puts("all answers are as they should be");
    return 0;
}
