/* How long chains get where nozzles count beads from the same start (document 02, change 3): 16 nozzles put in their beads in turn, all their first ones, then all
 * their second ones and so on. A key has the nozzle in its highest byte and the bead's number below. The file is `1 6 256 752 1`.
 * A line for each number of beads: that number, the records that went in, the pages that a find of each of them reads all together, and LENGTH:CHAINS for each length. */
#include <stdio.h>
#include <stdlib.h>

#include "bead_index.h"

enum { N = 1, B = 6, P = 256, V = 752, Q = 1, NOZZLES = 16, LONGEST = (V + 1) * B };

static struct bead_root root;
static struct bead_party parties[BEAD_PARTY_ROW(Q)];
static uint32_t locks[BEAD_LOCK_ROW(P)], pages[BEAD_PAGE_ROW(P, V, Q)], row[BEAD_ROW(Q)];
#define LENT \
    &root, parties, BEAD_PARTY_ROW(Q), locks, BEAD_LOCK_ROW(P), pages, BEAD_PAGE_ROW(P, V, Q), row, BEAD_ROW(Q)

static void insert(uint32_t key)
{
    struct bead_reply reply;
    if (bead_begin(LENT, 0, BEAD_INSERT, key, 0) != BEAD_OK)
        abort();
    do
        reply = bead_step(LENT, 0);
    while (reply.refusal == BEAD_OK && reply.outcome != BEAD_DONE);
    if (reply.refusal != BEAD_OK)
        abort();
}

/* Adds up a chain: how many records it has, and the pages that finds of them read. */
static uint32_t length_of(uint32_t chain, uint32_t *read)
{
    uint32_t length = 0, page = chain;
    for (uint32_t walked = 1;; walked++) {
        const uint32_t *words = pages + 16 * page;
        length += words[1];
        *read += walked * words[1];
        if (words[2] == 0)
            return length;
        page = words[2] - 1;
    }
}

static void print(uint32_t beads)
{
    static uint32_t chains[LONGEST + 1];
    uint32_t records = 0, read = 0, there = (root.originals << root.level) + root.next;
    for (uint32_t length = 0; length <= LONGEST; length++)
        chains[length] = 0;
    for (uint32_t chain = 0; chain < there; chain++) {
        uint32_t length = length_of(chain, &read);
        chains[length]++;
        records += length;
    }
    printf("%u %u %u", (unsigned)beads, (unsigned)records, (unsigned)read);
    for (uint32_t length = 0; length <= LONGEST; length++)
        if (chains[length] > 0)
            printf(" %u:%u", (unsigned)length, (unsigned)chains[length]);
    printf("\n");
}

int main(void)
{
    if (bead_format(LENT, N, B, P, V, Q) != BEAD_OK)
        return 1;
    for (uint32_t beads = 0; beads < 500; beads++) {
        for (uint32_t nozzle = 0; nozzle < NOZZLES; nozzle++)
            insert(nozzle << 24 | beads);
        if (beads == 49 || beads == 99 || beads == 499)
            print(beads + 1);
    }
    return 0;
}
