/* The steps of the C port, as docs/SPECIFICATION.md has them under "The thirty steps". The number of each stands
 * before its function; those that only request or give up a lock are lines of bench/port.c. Each makes all its tests
 * before it writes. */
#ifndef BENCH_PORT_STEPS_H
#define BENCH_PORT_STEPS_H

#include "waiting.h"

/* What a party owes once its change is made. */
enum { OWES_NOTHING, OWES_SPLIT, OWES_MERGE, HAS_SPLIT };

/* ---- Locating and finding */

/* 3: chain = h_lev(key); where that is below next, lev + 1 and h_(lev + 1)(key). */
static inline reply fix_chain(const turn *t)
{
    const root *r = t->r;
    uint32_t mix = mixed(t->me->key), lev = t->me->lev, chain = hash(r, lev, mix);
    if (chain < r->next)
        chain = hash(r, ++lev, mix);
    if (REFUSE(chain >= r->primaries))
        return refused(BEAD_DAMAGE);
    t->me->lev = lev;
    t->me->chain = chain;
    return go(t->me, 4);
}

/* 6: copies the primary page to scratch. While lev differs from its local level, lev rises, and the party leaves the
 * chain as soon as h_lev(key) is another one. */
static inline reply copy_primary(const turn *t)
{
    const root *r = t->r;
    party *me = t->me;
    const uint32_t *page = seen_at(t->pages, me->chain);
    uint32_t lev = me->lev, chain = me->chain;
    if (REFUSE(!sound(r, page) || page[LEVEL] < lev))
        return refused(BEAD_DAMAGE);
    if (lev != page[LEVEL]) {
        uint32_t mix = mixed(me->key);
        do
            chain = hash(r, ++lev, mix);
        while (lev != page[LEVEL] && chain == me->chain);
        if (REFUSE(chain >= r->primaries))
            return refused(BEAD_DAMAGE);
        me->lev = lev;
    }
    copy_page(scratch_of(r, t->pages, t->q), page);
    if (chain == me->chain)
        return go(me, me->operation == BEAD_FIND ? 9 : 10);
    me->other = me->chain;
    me->chain = chain;
    return go(me, 7);
}

/* Where the key is among a page's records, the first place of equal ones, or the count. No branch goes by the keys. */
static inline uint32_t place_on(const uint32_t *page, uint32_t key)
{
    uint32_t count = page[COUNT], at = count;
    for (uint32_t i = PAGE_RECORDS; i-- > 0;)
        at = ((page[RECORDS + 2 * i] == key) & (i < count)) ? i : at;
    return at;
}

/* The end of a find, which gives up its chain. */
static inline reply found(const turn *t, const uint32_t *page, uint32_t at)
{
    uint32_t *word = &t->locks[t->me->chain + 1];
    if (REFUSE(!holds(*word, READ, t->q)))
        return refused(BEAD_DAMAGE);
    reply end = {.outcome = BEAD_DONE, .answer = BEAD_ABSENT};
    if (at < page[COUNT]) {
        end.answer = BEAD_FOUND;
        end.setting = page[RECORDS + 2 * at + 1];
    }
    *word &= ~field(READ, t->q);
    zero_party(t->r, t->pages, t->me, t->q);
    return end;
}

/* 9: looks on scratch; where the key is not there and the page has a link, copies the linked page over scratch. */
static inline reply look(const turn *t)
{
    uint32_t *page = scratch_of(t->r, t->pages, t->q);
    if (REFUSE(!sound(t->r, page)))
        return refused(BEAD_DAMAGE);
    uint32_t at = place_on(page, t->me->key);
    if (at < page[COUNT] || !page[LINK])
        return found(t, page, at);
    const uint32_t *linked = seen_at(t->pages, page[LINK] - 1);
    if (REFUSE(!sound(t->r, linked)))
        return refused(BEAD_DAMAGE);
    copy_page(page, linked);
    return (reply){.outcome = BEAD_MOVED};
}

/* ---- Changing */

/* How many keys are below this one. */
static inline uint32_t place_among(const record *records, uint32_t count, uint32_t key)
{
    uint32_t at = 0;
    for (uint32_t i = 0; i < count; i++)
        at += records[i].key < key;
    return at;
}

static inline reply answer_then(party *me, uint32_t answer, uint32_t then)
{
    me->answer = answer;
    return go(me, then);
}

/* Puts the party's record among the others, or takes it out. */
static inline void alter(record *records, uint32_t count, uint32_t at, const party *me)
{
    record *place = records + at;
    if (me->operation == BEAD_INSERT) {
        memmove(place + 1, place, sizeof(record) * (count - at));
        *place = (record){me->key, me->setting};
    } else
        memmove(place, place + 1, sizeof(record) * (count - at - 1));
}

/* 10: looks through the chain. Where the key is in as it should be, or too few pages are free, the answer stands; else
 * the changed chain is built, its primary page in scratch. More overflow pages than before owe a split, no record a
 * merge. */
APART reply change(root *r, uint32_t *pages, party *me, uint32_t q)
{
    record records[MAX_RECORDS];
    uint32_t overflow, key = me->key, inserts = me->operation == BEAD_INSERT;
    uint32_t count = gather(r, pages, me->chain, records, &overflow);
    if (REFUSE(count == BAD))
        return refused(BEAD_DAMAGE);
    uint32_t at = place_among(records, count, key);
    if ((at < count && records[at].key == key) == inserts)
        return answer_then(me, inserts ? BEAD_PRESENT : BEAD_ABSENT, 12);
    uint32_t after = inserts ? count + 1 : count - 1, wanted = extra_pages(r, after);
    if (r->free < wanted)
        return answer_then(me, BEAD_NO_PAGE, 12);
    if (REFUSE(!can_take(r, pages, wanted)))
        return refused(BEAD_DAMAGE);
    const uint32_t *primary = seen_at(pages, me->chain);
    alter(records, count, at, me);
    me->owed = inserts ? (wanted > overflow ? OWES_SPLIT : OWES_NOTHING) : after == 0 ? OWES_MERGE : OWES_NOTHING;
    me->old = primary[LINK];
    fill(r, pages, scratch_of(r, pages, q), primary[LEVEL], records, after);
    return answer_then(me, inserts ? BEAD_INSERTED : BEAD_DELETED, 11);
}

/* 11 and 18: writes scratch over the chain's primary page. */
static inline reply write_primary(const turn *t, uint32_t then)
{
    const uint32_t *page = scratch_of(t->r, t->pages, t->q);
    if (REFUSE(!sound(t->r, page)))
        return refused(BEAD_DAMAGE);
    copy_page(page_at(t->pages, t->me->chain), page);
    return go(t->me, then);
}

static inline reply report(const turn *t)
{
    return done(t->r, t->pages, t->me, t->q, t->me->owed == HAS_SPLIT ? BEAD_SPLIT : BEAD_NO_RESTRUCTURING);
}

/* The split or the merge that is owed, or the end. */
static inline reply go_by_owed(const turn *t)
{
    if (t->me->owed == OWES_SPLIT)
        return go(t->me, 15);
    return t->me->owed == OWES_MERGE ? go(t->me, 23) : report(t);
}

/* 12: gives up the chain. A change goes on where pages are to be given back, or a restructuring is owed. */
static inline reply leave_chain(const turn *t)
{
    uint32_t *word = &t->locks[t->me->chain + 1], answer = t->me->answer;
    if (REFUSE(!holds(*word, SELECTIVE, t->q)))
        return refused(BEAD_DAMAGE);
    *word &= ~SELECTIVES;
    if (answer != BEAD_INSERTED && answer != BEAD_DELETED)
        return report(t);
    return t->me->old ? go(t->me, 13) : go_by_owed(t);
}

/* 13: requests exclusive on the chain. */
static inline reply request_old(const turn *t)
{
    if (REFUSE(!is_overflow(t->r, t->me->old)))
        return refused(BEAD_DAMAGE);
    return request_then(t, t->me->chain + 1, EXCLUSIVE, 14);
}

/* 14: gives back the pages that the old link leads to, and gives up the chain. */
static inline reply return_old(const turn *t)
{
    root *r = t->r;
    uint32_t *word = &t->locks[t->me->chain + 1];
    if (REFUSE(!is_overflow(r, t->me->old)))
        return refused(BEAD_DAMAGE);
    uint32_t count = length(r, t->pages, t->me->old);
    if (REFUSE(count == BAD || r->free + count > r->overflow || !holds(*word, EXCLUSIVE, t->q)))
        return refused(BEAD_DAMAGE);
    for (uint32_t link = t->me->old, after; link; link = after) {
        after = page_at(t->pages, link - 1)[LINK];
        give_back(r, t->pages, link);
    }
    *word &= ~EXCLUSIVES;
    t->me->old = 0;
    return go_by_owed(t);
}

/* ---- Splitting */

/* 16: requests selective on chain next; with P chains gives up the root. */
static inline reply request_split(const turn *t)
{
    uint32_t n = chains(t->r), next = t->r->next;
    if (n == t->r->primaries) {
        if (REFUSE(!holds(t->locks[0], SELECTIVE, t->q)))
            return refused(BEAD_DAMAGE);
        t->locks[0] &= ~SELECTIVES;
        return done(t->r, t->pages, t->me, t->q, BEAD_SPLIT_SKIPPED);
    }
    if (!request(t, next + 1, SELECTIVE))
        return waiting();
    t->me->chain = next;
    t->me->other = n;
    return go(t->me, 17);
}

/* Parts a chain's records by h_level: how many stay. Those that go are copied out. */
static inline uint32_t part(const root *r, uint32_t level, uint32_t chain, record *records, uint32_t count,
                            record *going)
{
    uint32_t stay = 0, out = 0;
    for (uint32_t i = 0; i < count; i++) {
        record one = records[i];
        uint32_t stays = hash(r, level, mixed(one.key)) == chain;
        records[stay] = one;
        going[out] = one;
        stay += stays;
        out += !stays;
    }
    return stay;
}

/* The end of a split for which too few pages are free: gives up root and chain. */
static inline reply skip_split(const root *r, uint32_t *pages, uint32_t *locks, party *me, uint32_t q)
{
    uint32_t *chain = &locks[me->chain + 1];
    if (REFUSE(!holds(locks[0], SELECTIVE, q) || !holds(*chain, SELECTIVE, q)))
        return refused(BEAD_DAMAGE);
    locks[0] &= ~SELECTIVES;
    *chain &= ~SELECTIVES;
    return done(r, pages, me, q, BEAD_SPLIT_SKIPPED);
}

/* 17: looks through the chain and parts its records; builds both halves, the staying one's primary page in scratch. */
APART reply split(root *r, uint32_t *pages, uint32_t *locks, party *me, uint32_t q)
{
    record records[MAX_RECORDS], going[MAX_RECORDS];
    uint32_t overflow, level = r->level + 1, chain = me->chain;
    uint32_t count = gather(r, pages, chain, records, &overflow);
    if (REFUSE(chains(r) == r->primaries || count == BAD))
        return refused(BEAD_DAMAGE);
    uint32_t stay = part(r, level, chain, records, count, going), out = count - stay;
    uint32_t wanted = extra_pages(r, stay) + extra_pages(r, out);
    if (r->free < wanted)
        return skip_split(r, pages, locks, me, q);
    if (REFUSE(!can_take(r, pages, wanted)))
        return refused(BEAD_DAMAGE);
    me->old = seen_at(pages, chain)[LINK];
    fill(r, pages, scratch_of(r, pages, q), level, records, stay);
    fill(r, pages, page_at(pages, me->other), level, going, out);
    return go(me, 18);
}

/* 20: next + 1, and 0 after the last chain of the level. */
static inline reply raise_next(const turn *t)
{
    uint32_t next = t->r->next + 1;
    t->r->next = next == t->r->originals << t->r->level ? 0 : next;
    return go(t->me, 21);
}

/* 21: level + 1 where next is 0. */
static inline reply raise_level(const turn *t)
{
    t->r->level += t->r->next == 0;
    return go(t->me, 22);
}

/* 22: gives up the root; the old pages are given back at 13. */
static inline reply leave_split(const turn *t)
{
    if (REFUSE(!holds(t->locks[0], SELECTIVE, t->q)))
        return refused(BEAD_DAMAGE);
    t->locks[0] &= ~SELECTIVES;
    t->me->owed = HAS_SPLIT;
    return t->me->old ? go(t->me, 13) : done(t->r, t->pages, t->me, t->q, BEAD_SPLIT);
}

/* ---- Merging */

/* 24: requests exclusive on the target; with N chains gives up the root. */
static inline reply request_merge(const turn *t)
{
    uint32_t n = chains(t->r);
    if (n == t->r->originals) {
        if (REFUSE(!holds(t->locks[0], EXCLUSIVE, t->q)))
            return refused(BEAD_DAMAGE);
        t->locks[0] &= ~EXCLUSIVES;
        return done(t->r, t->pages, t->me, t->q, BEAD_MERGE_SKIPPED);
    }
    uint32_t target = target_of(t->r);
    if (!request(t, target + 1, EXCLUSIVE))
        return waiting();
    t->me->chain = target;
    t->me->other = n - 1;
    return go(t->me, 25);
}

/* Gives up the root's lock of this kind and both chains', if all are held. */
static inline int leave_all(uint32_t *locks, const party *me, enum lock kind, uint32_t q)
{
    uint32_t *chain = &locks[me->chain + 1], *other = &locks[me->other + 1];
    if (REFUSE(!holds(locks[0], kind, q) || !holds(*chain, EXCLUSIVE, q) || !holds(*other, EXCLUSIVE, q)))
        return 0;
    locks[0] &= ~field(kind, q);
    *chain &= ~EXCLUSIVES;
    *other &= ~EXCLUSIVES;
    return 1;
}

/* Whether two chains, ascending both, share a key. */
static inline uint32_t share(const record *a, uint32_t as, const record *b, uint32_t bs)
{
    uint32_t twice = 0;
    for (uint32_t i = 0, j = 0; i < as && j < bs;) {
        twice |= a[i].key == b[j].key;
        if (a[i].key < b[j].key)
            i++;
        else
            j++;
    }
    return twice;
}

/* 26: looks through both chains. Joined records that fit a page go to scratch; else all locks are given up. */
APART reply merge(const root *r, uint32_t *pages, uint32_t *locks, party *me, uint32_t q)
{
    record a[MAX_RECORDS], b[MAX_RECORDS], joined[PAGE_RECORDS];
    uint32_t overflow, as = gather(r, pages, me->chain, a, &overflow), bs = gather(r, pages, me->other, b, &overflow);
    if (REFUSE(chains(r) == r->originals || as == BAD || bs == BAD || share(a, as, b, bs)))
        return refused(BEAD_DAMAGE);
    if (as + bs > r->capacity) {
        if (REFUSE(!leave_all(locks, me, EXCLUSIVE, q)))
            return refused(BEAD_DAMAGE);
        return done(r, pages, me, q, BEAD_MERGE_SKIPPED);
    }
    for (uint32_t k = 0, i = 0, j = 0; k < as + bs; k++)
        joined[k] = j == bs || (i < as && a[i].key < b[j].key) ? a[i++] : b[j++];
    const uint32_t *target = seen_at(pages, me->chain);
    me->old = target[LINK];
    write_page(scratch_of(r, pages, q), target[LEVEL], 0, joined, as + bs);
    return go(me, 27);
}

/* 27: the root's exclusive lock becomes selective; level - 1 where next is 0, then next = chain. */
static inline reply retreat(const turn *t)
{
    uint32_t *word = &t->locks[0];
    if (REFUSE(chains(t->r) == t->r->originals || !holds(*word, EXCLUSIVE, t->q)))
        return refused(BEAD_DAMAGE);
    *word = (*word & ~(EXCLUSIVES | SELECTIVES)) | hold(SELECTIVE, t->q);
    t->r->level -= t->r->next == 0;
    t->r->next = t->me->chain;
    return go(t->me, 28);
}

/* 28: writes scratch over the chain's primary page, its local level lowered by one. */
static inline reply write_merged(const turn *t)
{
    const uint32_t *page = scratch_of(t->r, t->pages, t->q);
    if (REFUSE(!sound(t->r, page) || page[LEVEL] == 0))
        return refused(BEAD_DAMAGE);
    copy_page(page_at(t->pages, t->me->chain), page);
    page_at(t->pages, t->me->chain)[LEVEL]--;
    return go(t->me, 29);
}

/* The links from one on, written to a list: its new end. */
static inline uint32_t *list_links(const uint32_t *pages, uint32_t link, uint32_t *end)
{
    for (; link; link = seen_at(pages, link - 1)[LINK])
        *end++ = link;
    return end;
}

/* 29: gives back the pages that the old link leads to, then the partner's. A page may be on both lists, and is then
 * given back twice, so the links are kept. */
APART reply return_merged(root *r, uint32_t *pages, party *me)
{
    uint32_t links[2 * MAX_OVERFLOW], *partner = page_at(pages, me->other);
    if (REFUSE((me->old && !is_overflow(r, me->old)) || !sound(r, partner)))
        return refused(BEAD_DAMAGE);
    uint32_t olds = length(r, pages, me->old), others = length(r, pages, partner[LINK]);
    if (REFUSE(olds == BAD || others == BAD || r->free + olds + others > r->overflow))
        return refused(BEAD_DAMAGE);
    uint32_t *end = list_links(pages, partner[LINK], list_links(pages, me->old, links));
    for (const uint32_t *link = links; link < end; link++)
        give_back(r, pages, *link);
    memset(partner, 0, PAGE_BYTES);
    return go(me, 30);
}

/* 30: gives up the root and both chains. */
static inline reply leave_merge(const turn *t)
{
    if (REFUSE(!leave_all(t->locks, t->me, SELECTIVE, t->q)))
        return refused(BEAD_DAMAGE);
    return done(t->r, t->pages, t->me, t->q, BEAD_MERGED);
}

#endif
