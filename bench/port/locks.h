/* The replies of the C port, and its locks (docs/SPECIFICATION.md, "A lock word" and "Addresses and locks"). */
#ifndef BENCH_PORT_LOCKS_H
#define BENCH_PORT_LOCKS_H

#include "memory.h"

/* How many parties wait, and how many of them stand before this one: all, where it does not wait. */
typedef struct {
    uint32_t length, place;
} queue;

/* A call under way: the memory lent, whose step it is, by record and number, and where that party stands. */
typedef struct {
    root *r;
    party *parties, *me;
    uint32_t *locks, *pages, *row, q;
    queue line;
} turn;

/* ---- Replies */

static inline reply refused(uint32_t number) { return (reply){.refusal = number}; }
static inline reply waiting(void) { return (reply){.outcome = BEAD_WAITING}; }

static inline reply go(party *me, uint32_t step)
{
    me->step = step;
    return (reply){.outcome = BEAD_MOVED};
}

static inline void zero_party(const root *r, uint32_t *pages, party *me, uint32_t q)
{
    memset(me, 0, sizeof *me);
    memset(scratch_of(r, pages, q), 0, PAGE_BYTES);
}

/* The end of an insert or a delete. */
static inline reply done(const root *r, uint32_t *pages, party *me, uint32_t q, uint32_t restructuring)
{
    uint32_t answer = me->answer;
    zero_party(r, pages, me, q);
    return (reply){.outcome = BEAD_DONE, .answer = answer, .restructuring = restructuring};
}

/* ---- Lock words */

#define READERS 0xffffu
#define SELECTIVES (31u << 16)
#define EXCLUSIVES (31u << 21)

enum lock { READ, SELECTIVE, EXCLUSIVE };

/* Table I: the request down, the strongest lock held across. */
static const uint8_t grants[3][3] = {
    {1, 1, 0},
    {1, 0, 0},
    {0, 0, 0},
};

/* Whether the locks held permit a request. */
static inline int granted(uint32_t word, enum lock request)
{
    if (!(word & (READERS | SELECTIVES | EXCLUSIVES)))
        return 1;
    return grants[request][word & EXCLUSIVES ? EXCLUSIVE : word & SELECTIVES ? SELECTIVE : READ];
}

/* The bits that name who holds a lock of this kind. */
static inline uint32_t field(enum lock kind, uint32_t q)
{
    return kind == READ ? 1u << q : kind == SELECTIVE ? SELECTIVES : EXCLUSIVES;
}

/* Those bits where it is party q. */
static inline uint32_t hold(enum lock kind, uint32_t q)
{
    return kind == READ ? 1u << q : (q + 1) << (kind == SELECTIVE ? 16 : 21);
}

static inline int holds(uint32_t word, enum lock kind, uint32_t q) { return (word & field(kind, q)) == hold(kind, q); }

/* Own mode: read for a find, selective for an insert or a delete. */
static inline enum lock own_mode(const party *me) { return me->operation == BEAD_FIND ? READ : SELECTIVE; }

/* A step that gives up a lock and does nothing else. */
static inline reply leave_then(const turn *t, uint32_t word, enum lock kind, uint32_t then)
{
    if (REFUSE(!holds(t->locks[word], kind, t->q)))
        return refused(BEAD_DAMAGE);
    t->locks[word] &= ~field(kind, t->q);
    return go(t->me, then);
}

#endif
