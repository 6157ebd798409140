/* A slicer that restarts: a file is saved, taken up by the next run, and rescued from a run that was killed.
 *
 * Each run is a process of its own. The first lays some beads and saves the file; the second takes it up and goes on.
 * The third works on a mapped file and is killed while two inserts are under way: its words are no file at rest, and
 * take-up refuses them (8). Words between two calls are sound, so the fourth settles a copy: it withdraws what has
 * decided nothing, steps the rest to its end, and takes the copy up. The words of the fifth were altered by something
 * else: settled or not they are refused, and it goes back to the file that was saved last.
 *
 * Build and run it from the root of the repository:
 *     library=$(tests/staticlib) && cc -std=c11 -Iinclude examples/restart.c "$library" -o restart && ./restart */
#define _DEFAULT_SOURCE
#include <fcntl.h>
#include <signal.h>
#include <stdbool.h>
#include <stdio.h>
#include <stdlib.h>
#include <sys/mman.h>
#include <sys/wait.h>
#include <unistd.h>

#include "bead_index.h"

/* The sizes: one chain at first and four at most, two beads a page, eight overflow pages, two parties. */
enum { N = 1, B = 2, P = 4, V = 8, Q = 2 };
enum { SLICING, PREVIEW };

/* The words of a file in one struct, so that they can be saved and loaded as a whole. */
struct words {
    struct bead_root root;
    struct bead_party parties[BEAD_PARTY_ROW(Q)];
    uint32_t locks[BEAD_LOCK_ROW(P)];
    uint32_t pages[BEAD_PAGE_ROW(P, V, Q)];
    uint32_t row[BEAD_ROW(Q)];
};
static struct words memory;

/* Where the words are: in memory of this process, or mapped. */
static struct words *file = &memory;
#define LENT                                                                                                           \
    &file->root, file->parties, BEAD_PARTY_ROW(Q), file->locks, BEAD_LOCK_ROW(P), file->pages,                         \
        BEAD_PAGE_ROW(P, V, Q), file->row, BEAD_ROW(Q)

/* Says what has come about, or that it has not: the program then ends with 1. */
static void expect(bool holds, const char *what)
{
    if (holds) {
        puts(what);
        return;
    }
    printf("not so: %s\n", what);
    exit(1);
}

/* ---- Saved files */

/* Saves to a new file and renames it, so that a whole file stands under the name at every moment. */
static bool save(const char *name)
{
    char new_name[16];
    snprintf(new_name, sizeof new_name, "%s.new", name);
    FILE *out = fopen(new_name, "wb");
    if (out == NULL)
        return false;
    bool written = fwrite(file, sizeof *file, 1, out) == 1 && fflush(out) == 0 && fsync(fileno(out)) == 0;
    return fclose(out) == 0 && written && rename(new_name, name) == 0;
}

/* Reads the words of a file, none fewer and none more. */
static bool load(const char *name)
{
    FILE *in = fopen(name, "rb");
    if (in == NULL)
        return false;
    bool whole = fread(file, sizeof *file, 1, in) == 1 && fgetc(in) == EOF;
    fclose(in);
    return whole;
}

/* More rounds of steps than operations that only the calls have altered can take. */
enum { MOST_ROUNDS = Q * (64 + V) };

/* Brings the file to rest: withdraws every operation that has decided nothing, and steps the others to their end, in
 * turn. False where that is not to be had: something else than the calls has altered the words. */
static bool settle(void)
{
    for (uint32_t party = 0; party < Q; party++) {
        uint32_t refusal = bead_withdraw(LENT, party);
        if (refusal != BEAD_OK && refusal != BEAD_IDLE_REFUSED && refusal != BEAD_DECIDED_REFUSED)
            return false;
    }
    for (int round = 0; round < MOST_ROUNDS; round++) {
        bool busy = false;
        for (uint32_t party = 0; party < Q; party++) {
            struct bead_reply reply = bead_step(LENT, party);
            if (reply.refusal != BEAD_OK && reply.refusal != BEAD_IDLE_REFUSED)
                return false;
            busy = busy || reply.refusal == BEAD_OK;
        }
        if (!busy)
            return true;
    }
    return false;
}

/* ---- Operations */

/* An operation of one party from its begin to its end, alone. */
static struct bead_reply run(uint32_t party, uint32_t operation, uint32_t bead, uint32_t setting)
{
    struct bead_reply reply = {.refusal = bead_begin(LENT, party, operation, bead, setting)};
    while (reply.refusal == BEAD_OK && reply.outcome != BEAD_DONE)
        reply = bead_step(LENT, party);
    return reply;
}

static bool lays(uint32_t bead) { return run(SLICING, BEAD_INSERT, bead, 40 + bead).answer == BEAD_INSERTED; }

static bool finds(uint32_t bead)
{
    struct bead_reply reply = run(PREVIEW, BEAD_FIND, bead, 0);
    return reply.answer == BEAD_FOUND && reply.setting == 40 + bead;
}

/* Begins an insert and steps it until its next step has this number. */
static void leave_at(uint32_t party, uint32_t bead, uint32_t step)
{
    if (bead_begin(LENT, party, BEAD_INSERT, bead, 40 + bead) != BEAD_OK)
        exit(1);
    while (file->parties[party].step != step)
        if (bead_step(LENT, party).outcome != BEAD_MOVED)
            exit(1);
}

/* ---- The runs */

static void first(void)
{
    expect(bead_format(LENT, N, B, P, V, Q) == BEAD_OK, "the first run makes a file");
    expect(lays(1) && lays(2) && lays(3) && lays(4) && lays(5), "  beads 1 to 5 are laid");
    expect(save("wall"), "  the file is saved, and the run ends");
}

static void second(void)
{
    expect(load("wall") && bead_take_up(LENT) == BEAD_OK, "the second run takes the file up");
    expect(finds(1) && finds(5) && !finds(6), "  beads 1 to 5 are there");
    expect(lays(6) && save("wall"), "  bead 6 is laid, the file is saved, and the run ends");
}

/* Works on a mapped copy of the file, and is killed between two calls. */
static void third(void)
{
    expect(load("wall") && save("work"), "the third run works on a copy, which is mapped");
    int work = open("work", O_RDWR);
    file = mmap(NULL, sizeof *file, PROT_READ | PROT_WRITE, MAP_SHARED, work, 0);
    if (file == MAP_FAILED || close(work) != 0)
        exit(1);
    expect(bead_take_up(LENT) == BEAD_OK, "  it is taken up");
    leave_at(SLICING, 7, 12);
    puts("  bead 7 is written, and its insert not yet done");
    leave_at(PREVIEW, 8, 3);
    puts("  the insert of bead 8 has decided nothing yet");
    puts("  the run is killed");
    fflush(stdout);
    raise(SIGKILL);
}

static void fourth(void)
{
    expect(load("work") && bead_take_up(LENT) == BEAD_UNSAVED_REFUSED, "the fourth run is refused the mapped words: 8");
    expect(settle(), "  what it has read of them is settled");
    expect(bead_take_up(LENT) == BEAD_OK, "  and taken up");
    expect(finds(6) && finds(7) && !finds(8), "  bead 7 is there, and bead 8 is not");
    expect(save("wall"), "  the file is saved, and the run ends");
}

/* The same words, in which something else has altered the lock word of the root. */
static void fifth(void)
{
    expect(load("work"), "the fifth run reads the mapped words, and one of them is altered");
    file->locks[0] |= UINT32_C(1) << 30;
    expect(bead_take_up(LENT) == BEAD_UNSAVED_REFUSED, "  they are refused: 8");
    expect(!settle() || bead_take_up(LENT) != BEAD_OK, "  and settled they are refused too");
    expect(load("wall") && bead_take_up(LENT) == BEAD_OK, "  the file that was saved last is taken up");
    expect(finds(7), "  and nothing is lost");
}

/* Runs a process to its end: the signal that killed it, or 0 where it ended well. */
static int process(void (*body)(void))
{
    fflush(stdout);
    pid_t child = fork();
    if (child == 0) {
        body();
        exit(0);
    }
    int status = 0;
    if (child < 0 || waitpid(child, &status, 0) != child || (WIFEXITED(status) && WEXITSTATUS(status) != 0))
        exit(1);
    return WIFSIGNALED(status) ? WTERMSIG(status) : 0;
}

int main(void)
{
    char folder[] = P_tmpdir "/bead-restart-XXXXXX";
    if (mkdtemp(folder) == NULL || chdir(folder) != 0)
        return 1;
    bool ended = process(first) == 0 && process(second) == 0 && process(third) == SIGKILL && process(fourth) == 0 &&
                 process(fifth) == 0;
    remove("wall");
    remove("work");
    return rmdir(folder) == 0 && ended ? 0 : 1;
}
