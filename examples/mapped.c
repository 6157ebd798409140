/* Two processes share one file: its words are mapped into both, and each call is made under one mutex.
 *
 * Slicing lays the beads of a wall while preview looks for them, one call at a time by whoever has the mutex; where a
 * step waits, the process lets the other go on. The mutex stands in the mapping beside the words. It is robust: where
 * a process dies inside a call, the next one is told so. That call was cut in its middle, and the words are not to be
 * used again: a program then goes back to the file that it saved last (examples/restart.c).
 *
 * Build and run it from the root of the repository:
 *     library=$(tests/staticlib) && cc -std=c11 -pthread -Iinclude examples/mapped.c "$library" -o mapped
 *     ./mapped */
#define _DEFAULT_SOURCE
#include <pthread.h>
#include <sched.h>
#include <stdbool.h>
#include <stdio.h>
#include <stdlib.h>
#include <sys/mman.h>
#include <sys/wait.h>
#include <unistd.h>

#include "bead_index.h"

/* The sizes: one chain at first and sixteen at most, two beads a page, thirty overflow pages, two parties. */
enum { N = 1, B = 2, P = 16, V = 30, Q = 2 };
enum { SLICING, PREVIEW };
enum { BEADS = 40 };

/* What is mapped: the words of the file, and the mutex. */
struct shared {
    pthread_mutex_t mutex;
    struct bead_root root;
    struct bead_party parties[BEAD_PARTY_ROW(Q)];
    uint32_t locks[BEAD_LOCK_ROW(P)];
    uint32_t pages[BEAD_PAGE_ROW(P, V, Q)];
    uint32_t row[BEAD_ROW(Q)];
};
static struct shared *shared;
#define LENT                                                                                                           \
    &shared->root, shared->parties, BEAD_PARTY_ROW(Q), shared->locks, BEAD_LOCK_ROW(P), shared->pages,                 \
        BEAD_PAGE_ROW(P, V, Q), shared->row, BEAD_ROW(Q)

/* Takes the mutex. A process that died while it had it may have cut a call in its middle. */
static void take(void)
{
    if (pthread_mutex_lock(&shared->mutex) != 0)
        exit(1);
}

static void give_back(void) { pthread_mutex_unlock(&shared->mutex); }

/* An operation of one party from its begin to its end; between its calls the other process makes its own. */
static struct bead_reply run(uint32_t party, uint32_t operation, uint32_t bead, uint32_t setting)
{
    take();
    struct bead_reply reply = {.refusal = bead_begin(LENT, party, operation, bead, setting)};
    give_back();
    while (reply.refusal == BEAD_OK && reply.outcome != BEAD_DONE) {
        take();
        reply = bead_step(LENT, party);
        give_back();
        if (reply.outcome == BEAD_WAITING)
            sched_yield();
    }
    return reply;
}

/* Each bead with its own setting. */
static int slicing(void)
{
    for (uint32_t bead = 1; bead <= BEADS; bead++)
        if (run(SLICING, BEAD_INSERT, bead, 100 + bead).answer != BEAD_INSERTED)
            return 1;
    return 0;
}

/* Each bead again and again, until it is there. */
static int preview(void)
{
    for (uint32_t bead = 1; bead <= BEADS; bead++) {
        struct bead_reply reply;
        while ((reply = run(PREVIEW, BEAD_FIND, bead, 0)).answer == BEAD_ABSENT)
            sched_yield();
        if (reply.answer != BEAD_FOUND || reply.setting != 100 + bead)
            return 1;
    }
    return 0;
}

/* A process of its own. */
static pid_t start(int (*body)(void))
{
    pid_t child = fork();
    if (child == 0)
        _exit(body());
    return child;
}

static bool ended_well(pid_t child)
{
    int status = 0;
    return child > 0 && waitpid(child, &status, 0) == child && WIFEXITED(status) && WEXITSTATUS(status) == 0;
}

/* A new file of the length of what is shared, mapped; its name is gone at once, and it lasts as long as the mapping. */
static bool map(void)
{
    char name[] = P_tmpdir "/bead-mapped-XXXXXX";
    int descriptor = mkstemp(name);
    if (descriptor < 0 || unlink(name) != 0 || ftruncate(descriptor, sizeof *shared) != 0)
        return false;
    shared = mmap(NULL, sizeof *shared, PROT_READ | PROT_WRITE, MAP_SHARED, descriptor, 0);
    return shared != MAP_FAILED;
}

/* A mutex for processes, which tells of one that died with it. */
static bool make_mutex(void)
{
    pthread_mutexattr_t attributes;
    return pthread_mutexattr_init(&attributes) == 0 &&
           pthread_mutexattr_setpshared(&attributes, PTHREAD_PROCESS_SHARED) == 0 &&
           pthread_mutexattr_setrobust(&attributes, PTHREAD_MUTEX_ROBUST) == 0 &&
           pthread_mutex_init(&shared->mutex, &attributes) == 0;
}

int main(void)
{
    if (!map() || !make_mutex() || bead_format(LENT, N, B, P, V, Q) != BEAD_OK)
        return 1;
    pid_t slicer = start(slicing), previewer = start(preview);
    bool laid = ended_well(slicer), found = ended_well(previewer);
    if (!laid || !found)
        return 1;
    printf("slicing has laid %d beads, and preview has found each with its setting\n", BEADS);
    if (bead_take_up(LENT) != BEAD_OK)
        return 1;
    puts("both have ended, and the mapped words are a file at rest");
    return 0;
}
