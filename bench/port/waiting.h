/* The row of who waits, in the C port (docs/SPECIFICATION.md, "The row of who waits"): whether it is sound, where a
 * party stands in it, and whether an earlier request there conflicts. With -DNO_ROW nobody is in it and nobody joins,
 * so that a request is granted by Table I alone: bench/waits shows the difference. */
#ifndef BENCH_PORT_WAITING_H
#define BENCH_PORT_WAITING_H

#include "locks.h"

#ifdef NO_ROW
enum { HAS_ROW = 0 };
#else
enum { HAS_ROW = 1 };
#endif

/* ---- Where a party stands */

/* By operation, a bit for each of its steps that requests a lock. */
static const uint32_t requesting[4] = {0, 0x92, 0x1a092, 0x3802092};

/* Whether the party's next step requests a lock; 16 and 24 do not where n leaves no split or merge. */
static inline int requests(const root *r, const party *x)
{
    if (REFUSE(x->operation > BEAD_DELETE || x->step > 30 || !(requesting[x->operation] >> x->step & 1)))
        return 0;
    return (x->step != 16 || chains(r) != r->primaries) && (x->step != 24 || chains(r) != r->originals);
}

/* The queue of a row that somebody is in, its length BAD where the row is damaged. */
APART queue queue_in(const root *r, const party *parties, const uint32_t *row, uint32_t q)
{
    uint32_t length = 0, seen = 0, words = r->parties;
    for (; length < words && row[length]; length++) {
        uint32_t word = row[length], bit = 1u << (word & 31);
        if (REFUSE(word > words || seen & bit || !requests(r, &parties[word - 1])))
            return (queue){BAD, BAD};
        seen |= bit;
    }
    if (REFUSE(any_word(row + length, words - length)))
        return (queue){BAD, BAD};
    uint32_t place = length;
    if (seen >> (q + 1) & 1)
        for (place = 0; row[place] != q + 1;)
            place++;
    return (queue){length, place};
}

static inline queue queue_of(const turn *t)
{
    if (HAS_ROW && any_word(t->row, t->r->parties))
        return queue_in(t->r, t->parties, t->row, t->q);
    return (queue){0, 0};
}

/* ---- Requests */

/* The lock word that a party in a sound row waits for, and in which mode. A damaged record may name any chain, so the
 * word is worked out in 64 bits. */
static inline uint64_t wanted_by(const root *r, const party *x, enum lock *kind)
{
    *kind = x->step == 1 ? READ : x->step == 13 || x->step >= 23 ? EXCLUSIVE : own_mode(x);
    switch (x->step) {
    case 1:
    case 15:
    case 23: return 0;
    case 16: return r->next + 1;
    case 24: return target_of(r) + 1;
    case 25: return (uint64_t)x->other + 1;
    default: return (uint64_t)x->chain + 1;
    }
}

/* Whether one of those before the party waits for the same word, and Table I does not let both have it. */
APART int is_behind(const turn *t, uint32_t word, enum lock request)
{
    for (uint32_t i = 0; i < t->line.place; i++) {
        enum lock kind;
        if (wanted_by(t->r, &t->parties[t->row[i] - 1], &kind) == word && !grants[request][kind])
            return 1;
    }
    return 0;
}

static inline int waits(queue line) { return line.place < line.length; }

/* The first reply that waits. A sound row has room for a party that is not in it. */
static inline void join_row(const turn *t)
{
    if (HAS_ROW && !waits(t->line))
        t->row[t->line.length] = t->q + 1;
}

/* A step performed, or a withdraw: those behind the party move up. */
static inline void leave_row(const turn *t)
{
    if (!waits(t->line))
        return;
    for (uint32_t i = t->line.place + 1; i < t->line.length; i++)
        t->row[i - 1] = t->row[i];
    t->row[t->line.length - 1] = 0;
}

/* Whether the lock is granted: the locks held permit it, and no earlier waiting request conflicts. The word then names
 * the party, and the party waits no more. */
static inline int request(const turn *t, uint32_t word, enum lock kind)
{
    if (!granted(t->locks[word], kind) || (t->line.place && is_behind(t, word, kind))) {
        join_row(t);
        return 0;
    }
    t->locks[word] |= hold(kind, t->q);
    leave_row(t);
    return 1;
}

/* A step that requests a lock and does nothing else. */
static inline reply request_then(const turn *t, uint32_t word, enum lock kind, uint32_t then)
{
    return request(t, word, kind) ? go(t->me, then) : waiting();
}

#endif
