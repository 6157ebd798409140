/* A closed preview: an operation that nobody wants any more is withdrawn.
 *
 * Preview looks a bead up while slicing lays another one, and slicing waits for the chain that preview reads. The user
 * closes the preview in the middle of its find: the find is taken back, and slicing goes on. Opened again and closed a
 * little later, the find has taken its decisive step; it can no longer be withdrawn, and is stepped to its end.
 *
 * Build and run it from the root of the repository:
 *     library=$(tests/staticlib) && cc -std=c11 -Iinclude examples/closed_preview.c "$library" -o closed_preview
 *     ./closed_preview */
#include <stdbool.h>
#include <stdint.h>
#include <stdio.h>
#include <string.h>

#include "bead_index.h"

/* The sizes: one chain, two beads a page, eight overflow pages, two parties. */
enum { N = 1, B = 2, P = 1, V = 8, Q = 2 };
enum { SLICING, PREVIEW };

/* The memory that the index is lent, in one struct, so that it can be compared as a whole. */
struct memory {
    struct bead_root root;
    struct bead_party parties[BEAD_PARTY_ROW(Q)];
    uint32_t locks[BEAD_LOCK_ROW(P)];
    uint32_t pages[BEAD_PAGE_ROW(P, V, Q)];
    uint32_t row[BEAD_ROW(Q)];
};
static struct memory file, before;
#define LENT                                                                                                           \
    &file.root, file.parties, BEAD_PARTY_ROW(Q), file.locks, BEAD_LOCK_ROW(P), file.pages, BEAD_PAGE_ROW(P, V, Q),     \
        file.row, BEAD_ROW(Q)

/* Says what has come about, or that it has not: the program then ends with 1. */
static bool as_expected = true;
static void expect(bool holds, const char *what)
{
    if (holds) {
        puts(what);
    } else {
        printf("not so: %s\n", what);
        as_expected = false;
    }
}

/* Steps a party until it waits or is done. */
static struct bead_reply run(uint32_t party)
{
    struct bead_reply reply;
    do
        reply = bead_step(LENT, party);
    while (reply.refusal == BEAD_OK && reply.outcome == BEAD_MOVED);
    return reply;
}

/* Begins an operation and performs some steps of it. */
static void start(uint32_t party, uint32_t operation, uint32_t bead, uint32_t setting, int steps)
{
    if (bead_begin(LENT, party, operation, bead, setting) != BEAD_OK)
        as_expected = false;
    for (int i = 0; i < steps; i++)
        bead_step(LENT, party);
}

int main(void)
{
    if (bead_format(LENT, N, B, P, V, Q) != BEAD_OK)
        return 1;
    for (uint32_t bead = 1; bead <= 3; bead++) {
        start(SLICING, BEAD_INSERT, bead, 40, 0);
        run(SLICING);
    }
    puts("slicing has laid beads 1, 2 and 3");

    start(PREVIEW, BEAD_FIND, 3, 0, 5);
    puts("preview looks for bead 3 and has the chain");
    start(SLICING, BEAD_INSERT, 4, 60, 0);
    expect(run(SLICING).outcome == BEAD_WAITING, "slicing lays bead 4 and waits for preview");
    expect(bead_withdraw(LENT, PREVIEW) == BEAD_OK, "the preview is closed, and its find withdrawn");
    expect(run(SLICING).answer == BEAD_INSERTED, "slicing has laid bead 4");

    memcpy(&before, &file, sizeof file);
    start(PREVIEW, BEAD_FIND, 4, 0, 5);
    puts("preview, opened again, looks for bead 4");
    expect(bead_withdraw(LENT, PREVIEW) == BEAD_OK, "it is closed, and its find withdrawn");
    expect(memcmp(&before, &file, sizeof file) == 0, "every word is as it was before the find");

    start(PREVIEW, BEAD_FIND, 4, 0, 6);
    puts("preview, opened again, looks for bead 4 and has read its first page");
    expect(bead_withdraw(LENT, PREVIEW) == BEAD_DECIDED_REFUSED, "it is closed too late to withdraw the find");
    struct bead_reply reply = run(PREVIEW);
    expect(reply.answer == BEAD_FOUND && reply.setting == 60, "the find ends: bead 4 has setting 60");
    return as_expected ? 0 : 1;
}
