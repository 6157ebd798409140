/* The C port: the calls of include/bead_index.h as a careful programmer writes them without proof. It works in place,
 * allocates nothing and makes every test of the refusal table, so it is the measure of what the library costs: a
 * contender of bench/run and bench/count. tests/comparison compares it with the library, reply and every word.
 *
 *   port/memory.h   mixed keys, pages, chains, the free list
 *   port/locks.h    replies, lock words, Table I
 *   port/waiting.h  the row of who waits, requests
 *   port/steps.h    the steps
 *   port/take_up.h  what a saved file must be
 *
 * A step that rebuilds a chain gathers its records in a buffer, changes them there and writes pages of fixed size. */
#include "port/steps.h"
#include "port/take_up.h"

/* What every call is lent. */
#define LENT                                                                                                           \
    root *r, party *parties, size_t party_count, uint32_t *locks, size_t lock_words, uint32_t *pages,                  \
        size_t page_words, uint32_t *row, size_t row_words

typedef struct {
    size_t parties, locks, pages, row;
} lengths;

#define LENGTHS ((lengths){party_count, lock_words, page_words, row_words})

/* What the tests have read is read anew for the step, or the compiler would keep it all on the stack until then. */
#define READ_ANEW() __asm__ volatile("" ::: "memory")

/* ---- The tests of every call */

static inline int sizes_sound(uint32_t n, uint32_t b, uint32_t p, uint32_t v, uint32_t q)
{
    return p - 1 < BEAD_MOST_PRIMARIES && n - 1 < p && v <= MAX_OVERFLOW && q - 1 < BEAD_MOST_PARTIES &&
           b - 1 < PAGE_RECORDS;
}

static inline int lengths_sound(lengths lent, uint32_t p, uint32_t v, uint32_t q)
{
    return lent.parties == q && lent.locks == p + 1 && lent.pages == PAGE * (size_t)(p + v + q) && lent.row == q;
}

/* Refusals 2 and 1. */
static inline uint32_t fit(const root *r, lengths lent)
{
    if (REFUSE(!sizes_sound(r->originals, r->capacity, r->primaries, r->overflow, r->parties)))
        return BEAD_SIZE_REFUSED;
    return REFUSE(!lengths_sound(lent, r->primaries, r->overflow, r->parties)) ? BEAD_LENGTH_REFUSED : BEAD_OK;
}

/* Refusals 2, 1 and 3. */
static inline uint32_t admit(const root *r, lengths lent, uint32_t q)
{
    uint32_t refusal = fit(r, lent);
    return REFUSE(refusal) ? refusal : REFUSE(q >= r->parties) ? BEAD_PARTY_REFUSED : BEAD_OK;
}

static inline int root_sound(const root *r)
{
    return r->level <= 8 && r->next < r->originals << r->level && chains(r) <= r->primaries && r->free <= r->overflow;
}

/* The tests of damage that are common to all steps and to withdraw. */
static inline int numbers_sound(const root *r, const party *me)
{
    /* By operation, a bit for each of its steps. */
    static const uint32_t steps_of[4] = {0, 0x3fe, 0x7ffdfe, 0x7f807dfe};
    if (!root_sound(r) || me->operation > BEAD_DELETE || me->step > 30 || !(steps_of[me->operation] >> me->step & 1))
        return 0;
    if (me->lev > 9 || me->owed > HAS_SPLIT || me->answer > BEAD_NO_PAGE)
        return 0;
    return me->chain < r->primaries && me->other < r->primaries && (me->step < 12 || me->answer);
}

/* Whether nothing that every step and every withdraw tests is damaged; where the party stands is then worked out. */
static inline int stands(turn *t)
{
    if (!numbers_sound(t->r, t->me))
        return 0;
    t->line = queue_of(t);
    return t->line.length != BAD;
}

/* ---- Format and begin */

static inline void zero_words(uint32_t *words, size_t count) { memset(words, 0, 4 * count); }

uint32_t bead_format(LENT, uint32_t n, uint32_t b, uint32_t p, uint32_t v, uint32_t q)
{
    if (!sizes_sound(n, b, p, v, q))
        return BEAD_SIZE_REFUSED;
    if (!lengths_sound(LENGTHS, p, v, q))
        return BEAD_LENGTH_REFUSED;
    memset(parties, 0, q * sizeof *parties);
    zero_words(locks, lock_words);
    zero_words(pages, page_words);
    zero_words(row, row_words);
    for (uint32_t i = 1; i < v; i++)
        page_at(pages, p + i - 1)[LINK] = p + i + 1;
    *r = (root){.originals = n, .capacity = b, .primaries = p, .overflow = v, .parties = q};
    r->head = v ? p + 1 : 0;
    r->free = v;
    return BEAD_OK;
}

uint32_t bead_begin(LENT, uint32_t q, uint32_t operation, uint32_t key, uint32_t setting)
{
    (void)locks, (void)pages, (void)row;
    if (REFUSE(operation - BEAD_FIND > BEAD_DELETE - BEAD_FIND))
        return BEAD_NO_OPERATION;
    uint32_t refusal = admit(r, LENGTHS, q);
    if (REFUSE(refusal))
        return refusal;
    if (REFUSE(parties[q].operation != BEAD_IDLE))
        return BEAD_BUSY_REFUSED;
    parties[q] = (party){.operation = operation, .key = key, .step = 1};
    parties[q].setting = operation == BEAD_INSERT ? setting : 0;
    return BEAD_OK;
}

/* ---- Step */

/* The step of that number, one of the thirty. */
static inline reply perform(const turn *t, uint32_t step)
{
    root *r = t->r;
    party *me = t->me;
    switch (step) {
    case 1: return request_then(t, 0, READ, 2);
    case 2: me->lev = r->level; return go(me, 3);
    case 3: return fix_chain(t);
    case 4: return request_then(t, me->chain + 1, own_mode(me), 5);
    case 5: return leave_then(t, 0, READ, 6);
    case 6: return copy_primary(t);
    case 7: return request_then(t, me->chain + 1, own_mode(me), 8);
    case 8: return leave_then(t, me->other + 1, own_mode(me), 6);
    case 9: return look(t);
    case 10: return change(r, t->pages, me, t->q);
    case 11: return write_primary(t, 12);
    case 12: return leave_chain(t);
    case 13: return request_old(t);
    case 14: return return_old(t);
    case 15: return request_then(t, 0, SELECTIVE, 16);
    case 16: return request_split(t);
    case 17: return split(r, t->pages, t->locks, me, t->q);
    case 18: return write_primary(t, 19);
    case 19: return leave_then(t, me->chain + 1, SELECTIVE, 20);
    case 20: return raise_next(t);
    case 21: return raise_level(t);
    case 22: return leave_split(t);
    case 23: return request_then(t, 0, EXCLUSIVE, 24);
    case 24: return request_merge(t);
    case 25: return request_then(t, me->other + 1, EXCLUSIVE, 26);
    case 26: return merge(r, t->pages, t->locks, me, t->q);
    case 27: return retreat(t);
    case 28: return write_merged(t);
    case 29: return return_merged(r, t->pages, me);
    default: return leave_merge(t);
    }
}

reply bead_step(LENT, uint32_t q)
{
    uint32_t refusal = admit(r, LENGTHS, q);
    if (REFUSE(refusal))
        return refused(refusal);
    party *me = &parties[q];
    if (REFUSE(me->operation == BEAD_IDLE))
        return refused(BEAD_IDLE_REFUSED);
    turn t = {r, parties, me, locks, pages, row, q, {0, 0}};
    if (REFUSE(!stands(&t)))
        return refused(BEAD_DAMAGE);
    const uint32_t step = me->step;
    READ_ANEW();
    return perform(&t, step);
}

/* ---- Withdraw */

/* Whether the decisive step is taken. */
static inline int decided(const party *me)
{
    if (me->operation == BEAD_FIND)
        return me->step == 9;
    return (me->operation == BEAD_INSERT || me->operation == BEAD_DELETE) && me->step >= 12;
}

/* Gives back the pages that scratch leads to, or tells that something is damaged. Given back in reverse order, they
 * stand in the free list as they stood in their chain. */
static inline int return_built(root *r, uint32_t *pages, const uint32_t *scratch)
{
    uint32_t count = sound(r, scratch) ? length(r, pages, scratch[LINK]) : BAD, head = r->head;
    if (REFUSE(count == BAD || r->free + count > r->overflow))
        return 0;
    if (count)
        r->head = scratch[LINK];
    for (uint32_t link = scratch[LINK], after; link; link = after) {
        uint32_t *page = page_at(pages, link - 1);
        after = page[LINK];
        memset(page, 0, PAGE_BYTES);
        page[LINK] = after ? after : head;
    }
    r->free += count;
    return 1;
}

/* Gives up the locks that the step number claims, and at 11 the pages built, if nothing is damaged. */
static inline int take_back(const turn *t)
{
    enum lock kind = own_mode(t->me);
    uint32_t step = t->me->step, q = t->q, *locks = t->locks;
    uint32_t *chain = &locks[t->me->chain + 1], *other = &locks[t->me->other + 1];
    int has_root = step >= 2 && step <= 5, has_chain = step >= 5 && step != 7, has_other = step == 7 || step == 8;
    if (REFUSE((has_root && !holds(locks[0], READ, q)) || (has_chain && !holds(*chain, kind, q)) ||
               (has_other && !holds(*other, kind, q))))
        return 0;
    if (step == 11 && REFUSE(!return_built(t->r, t->pages, scratch_of(t->r, t->pages, q))))
        return 0;
    if (has_root)
        locks[0] &= ~field(READ, q);
    if (has_chain)
        *chain &= ~field(kind, q);
    if (has_other)
        *other &= ~field(kind, q);
    return 1;
}

uint32_t bead_withdraw(LENT, uint32_t q)
{
    uint32_t refusal = admit(r, LENGTHS, q);
    if (REFUSE(refusal))
        return refusal;
    party *me = &parties[q];
    if (me->operation == BEAD_IDLE)
        return BEAD_IDLE_REFUSED;
    if (decided(me))
        return BEAD_DECIDED_REFUSED;
    turn t = {r, parties, me, locks, pages, row, q, {0, 0}};
    if (REFUSE(!stands(&t) || !take_back(&t)))
        return BEAD_DAMAGE;
    leave_row(&t);
    zero_party(r, pages, me, q);
    return BEAD_OK;
}

/* ---- Take-up */

uint32_t bead_take_up(const root *r, const party *parties, size_t party_count, const uint32_t *locks, size_t lock_words,
                      const uint32_t *pages, size_t page_words, const uint32_t *row, size_t row_words)
{
    uint32_t refusal = fit(r, LENGTHS);
    if (refusal)
        return refusal;
    int at_rest = all_zero(&parties->operation, r->parties * sizeof *parties / 4) && all_zero(locks, lock_words) &&
                  all_zero(row, row_words);
    return at_rest && root_sound(r) && pages_saved(r, pages) ? BEAD_OK : BEAD_UNSAVED_REFUSED;
}
