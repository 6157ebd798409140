/* The lent memory of the C port: mixed keys and addresses, pages, chains and the free list (docs/SPECIFICATION.md,
 * "The lent memory"). Whatever looks through pages tests each, and ends on any memory; BAD says that it is damaged. */
#ifndef BENCH_PORT_MEMORY_H
#define BENCH_PORT_MEMORY_H

#include <string.h>

#include "bead_index.h"

/* The words of a page, and its length in words, bytes and records. */
enum { LEVEL, COUNT, LINK, RECORDS, PAGE = BEAD_PAGE_WORDS, PAGE_BYTES = 4 * PAGE, PAGE_RECORDS = BEAD_MOST_RECORDS };
/* Room for the longest chain and one record more, and for a page that a copy of fixed size may go beyond it. */
enum { MAX_OVERFLOW = BEAD_MOST_OVERFLOW, MAX_RECORDS = (3 + MAX_OVERFLOW) * PAGE_RECORDS };

#define BAD UINT32_MAX
/* A test that is seldom met. Without the hint the compiler takes the steps for cold. */
#define REFUSE(condition) __builtin_expect(!!(condition), 0)
/* A step with large buffers, which are kept out of the frame of every other call. */
#define APART static __attribute__((noinline))

typedef struct bead_root root;
typedef struct bead_party party;
typedef struct bead_reply reply;

typedef struct {
    uint32_t key, setting;
} record;

/* ---- Addresses */

/* The table of mixed keys, the lowest byte's row first, worked out before main. */
static uint32_t table[4][256];

__attribute__((constructor)) static void make_table(void)
{
    uint32_t word = 2463534242;
    for (uint32_t i = 0; i < 4 * 256; i++) {
        word ^= word << 13;
        word ^= word >> 17;
        word ^= word << 5;
        table[i / 256][i % 256] = word;
    }
}

static inline uint32_t mixed(uint32_t key)
{
    return table[0][key & 255] ^ table[1][key >> 8 & 255] ^ table[2][key >> 16 & 255] ^ table[3][key >> 24];
}

/* h_level of a key, given as its mixed key. */
static inline uint32_t hash(const root *r, uint32_t level, uint32_t mix) { return mix % (r->originals << level); }

/* n: the number of chains outside a restructuring. */
static inline uint32_t chains(const root *r) { return (r->originals << r->level) + r->next; }

/* The target of a merge, where n is above N. */
static inline uint32_t target_of(const root *r) { return (r->next ? r->next : r->originals << (r->level - 1)) - 1; }

/* ---- Words to be zero */

static inline uint64_t two_words(const uint32_t *words)
{
    uint64_t both;
    memcpy(&both, words, sizeof both);
    return both;
}

static inline uint64_t four_words(const uint32_t *words) { return two_words(words) | two_words(words + 2); }
static inline uint64_t eight_words(const uint32_t *words) { return four_words(words) | four_words(words + 4); }

/* Not 0 if one of these words is not, 16 words at most: a look from each end, which may meet. */
static inline uint64_t any_word(const uint32_t *words, uint32_t count)
{
    if (count >= 8)
        return eight_words(words) | eight_words(words + count - 8);
    if (count >= 4)
        return four_words(words) | four_words(words + count - 4);
    return count ? words[0] | words[count / 2] | words[count - 1] : 0;
}

/* ---- Pages */

static inline uint32_t *page_at(uint32_t *pages, uint32_t number) { return pages + PAGE * (size_t)number; }

/* The same, to be read alone. */
static inline const uint32_t *seen_at(const uint32_t *pages, uint32_t number) { return pages + PAGE * (size_t)number; }

static inline uint32_t *scratch_of(const root *r, uint32_t *pages, uint32_t q)
{
    return page_at(pages, r->primaries + r->overflow + q);
}

static inline void copy_page(uint32_t *to, const uint32_t *from) { memcpy(to, from, PAGE_BYTES); }

static inline int is_overflow(const root *r, uint32_t link) { return link - 1 - r->primaries < r->overflow; }

/* Whether record count, local level and link are within their limits. */
static inline int sound(const root *r, const uint32_t *page)
{
    return page[COUNT] <= r->capacity && page[LEVEL] <= 9 && (!page[LINK] || is_overflow(r, page[LINK]));
}

/* Fixed in size: every word of the page is written, those behind the count with 0. */
static inline void write_page(uint32_t *to, uint32_t level, uint32_t link, const record *records, uint32_t count)
{
    uint32_t words[2 * PAGE_RECORDS];
    memcpy(words, records, sizeof words);
    to[LEVEL] = level;
    to[COUNT] = count;
    to[LINK] = link;
    for (uint32_t i = 0; i < 2 * PAGE_RECORDS; i++)
        to[RECORDS + i] = i < 2 * count ? words[i] : 0;
    to[PAGE - 1] = 0;
}

/* ---- Chains */

/* The overflow pages that so many records need. */
static inline uint32_t extra_pages(const root *r, uint32_t records)
{
    return records ? (records - 1) / r->capacity : 0;
}

/* Whether the keys do not ascend. */
static inline uint32_t falls(const record *records, uint32_t count)
{
    uint32_t any = 0;
    for (uint32_t i = 1; i < count; i++)
        any |= records[i - 1].key >= records[i].key;
    return any;
}

/* Looks through a chain: how many records it has, or BAD; the records, whose room is never zeroed, and how many
 * overflow pages it has. A chain with more pages than there are goes round. */
static inline uint32_t gather(const root *r, const uint32_t *pages, uint32_t chain, record *records,
                              uint32_t *overflow)
{
    const uint32_t *page = seen_at(pages, chain);
    uint32_t count = 0, extra = 0;
    for (;;) {
        if (REFUSE(!sound(r, page) || extra > r->overflow))
            return BAD;
        memcpy(records + count, page + RECORDS, sizeof(record) * PAGE_RECORDS);
        count += page[COUNT];
        if (!page[LINK])
            break;
        page = seen_at(pages, page[LINK] - 1);
        extra++;
    }
    *overflow = extra;
    return falls(records, count) ? BAD : count;
}

/* How many pages there are from a link on, or BAD. As the list ends, none is on it twice. */
static inline uint32_t length(const root *r, const uint32_t *pages, uint32_t link)
{
    uint32_t count = 0;
    for (; link; link = seen_at(pages, link - 1)[LINK])
        if (REFUSE(count++ == r->overflow || !sound(r, seen_at(pages, link - 1))))
            return BAD;
    return count;
}

/* ---- The free list */

/* Whether the free list has so many overflow pages, none twice. Few are wanted, so each is held against the others. */
static inline int can_take(const root *r, const uint32_t *pages, uint32_t wanted)
{
    uint32_t taken[MAX_OVERFLOW], link = r->head, twice = 0;
    for (uint32_t i = 0; i < wanted; i++) {
        if (!is_overflow(r, link))
            return 0;
        for (uint32_t j = 0; j < i; j++)
            twice |= taken[j] == link;
        taken[i] = link;
        link = seen_at(pages, link - 1)[LINK];
    }
    return !twice;
}

/* Fills pages with records: the first is `to`, the others are taken from the free list. */
static inline void fill(root *r, uint32_t *pages, uint32_t *to, uint32_t level, const record *records, uint32_t count)
{
    const uint32_t b = r->capacity;
    uint32_t head = r->head, taken = 0;
    while (count > b) {
        uint32_t link = head;
        head = page_at(pages, link - 1)[LINK];
        taken++;
        write_page(to, level, link, records, b);
        to = page_at(pages, link - 1);
        level = 0;
        records += b;
        count -= b;
    }
    write_page(to, level, 0, records, count);
    r->head = head;
    r->free -= taken;
}

static inline void give_back(root *r, uint32_t *pages, uint32_t link)
{
    uint32_t *page = page_at(pages, link - 1);
    memset(page, 0, PAGE_BYTES);
    page[LINK] = r->head;
    r->head = link;
    r->free++;
}

#endif
