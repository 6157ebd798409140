/* How long a party waits for a lock where many previews are open (document 02, change 7): Q parties are called once a
 * round, one after the other. An idle one begins an operation of its own: of ten mostly eight are finds, one is an insert
 * and one a delete, of a few keys. The file is `1 1 4 40 Q`, so that chains have overflow pages, which are given back
 * under an exclusive lock. A wait is counted in rounds, from a step answered waiting to the step that is performed.
 * A line for each Q: that number, and the longest wait of a find and of an insert or a delete in ROUNDS rounds. */
#include <stdio.h>
#include <stdlib.h>

#include "bead_index.h"

enum { N = 1, B = 1, P = 4, V = 40, MOST_Q = BEAD_MOST_PARTIES, KEYS = 20, ROUNDS = 50000 };

static struct bead_root root;
static struct bead_party parties[BEAD_PARTY_ROW(MOST_Q)];
static uint32_t locks[BEAD_LOCK_ROW(P)], pages[BEAD_PAGE_ROW(P, V, MOST_Q)], row[BEAD_ROW(MOST_Q)];
#define LENT &root, parties, BEAD_PARTY_ROW(q), locks, BEAD_LOCK_ROW(P), pages, BEAD_PAGE_ROW(P, V, q), row, BEAD_ROW(q)

/* The same numbers in every run (xorshift). */
static uint32_t below(uint32_t bound)
{
    static uint64_t state = 0x9e3779b97f4a7c15u;
    state ^= state << 13;
    state ^= state >> 7;
    state ^= state << 17;
    return (uint32_t)((state >> 32) * bound >> 32);
}

static void begin(uint32_t q, uint32_t party)
{
    uint32_t tenth = below(10), operation = tenth < 8 ? BEAD_FIND : tenth == 8 ? BEAD_INSERT : BEAD_DELETE;
    if (bead_begin(LENT, party, operation, below(KEYS), party) != BEAD_OK)
        abort();
}

static int waits(uint32_t q, uint32_t party)
{
    struct bead_reply reply = bead_step(LENT, party);
    if (reply.refusal != BEAD_OK)
        abort();
    return reply.outcome == BEAD_WAITING;
}

static void run(uint32_t q)
{
    uint32_t waited[MOST_Q] = {0}, longest[2] = {0, 0};
    if (bead_format(LENT, N, B, P, V, q) != BEAD_OK)
        abort();
    for (uint32_t round = 0; round < ROUNDS; round++)
        for (uint32_t party = 0; party < q; party++) {
            if (parties[party].operation == BEAD_IDLE) {
                begin(q, party);
                continue;
            }
            uint32_t *most = &longest[parties[party].operation != BEAD_FIND];
            waited[party] = waits(q, party) ? waited[party] + 1 : 0;
            *most = waited[party] > *most ? waited[party] : *most;
        }
    printf("%u %u %u\n", (unsigned)q, (unsigned)longest[0], (unsigned)longest[1]);
}

int main(void)
{
    for (uint32_t q = 2; q <= MOST_Q; q++)
        run(q);
    return 0;
}
