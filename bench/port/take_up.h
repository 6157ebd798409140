/* Take-up in the C port: whether the words of allowed sizes and fitting lengths are a file at rest. Every page is looked
 * at once, and marked where it is an overflow page, so that none is in two lists and none is lost. */
#ifndef BENCH_PORT_TAKE_UP_H
#define BENCH_PORT_TAKE_UP_H

#include "memory.h"

/* The overflow pages met so far. */
typedef struct {
    uint8_t met[MAX_OVERFLOW];
    uint32_t count;
} survey;

/* Whether so many words are zero. */
static inline int all_zero(const uint32_t *words, size_t count)
{
    uint32_t any = 0;
    for (size_t i = 0; i < count; i++)
        any |= words[i];
    return !any;
}

/* ---- The file */

/* Whether a link leads to an overflow page that was not met before. It is met then. */
static inline int meets(const root *r, survey *seen, uint32_t link)
{
    uint32_t at = link - 1 - r->primaries;
    if (at >= r->overflow || seen->met[at])
        return 0;
    seen->met[at] = 1;
    seen->count++;
    return 1;
}

/* Whether a page has at most b records, as many where another follows, their keys ascending from the least that the
 * next may be and at home in the chain, and zeros behind them. */
static inline int page_saved(const root *r, const uint32_t *page, uint32_t chain, uint32_t modulus, uint64_t *least)
{
    uint32_t count = page[COUNT];
    if (count > r->capacity || (page[LINK] && count < r->capacity))
        return 0;
    const uint32_t *word = page + RECORDS, *end = word + 2 * count;
    for (; word < end; word += 2) {
        if (*word < *least || mixed(*word) % modulus != chain)
            return 0;
        *least = (uint64_t)*word + 1;
    }
    return !any_word(end, PAGE - RECORDS - 2 * count);
}

/* A chain of this local level; an overflow page of it has level 0 and is not empty. */
static inline int chain_saved(const root *r, const uint32_t *pages, survey *seen, uint32_t chain, uint32_t level)
{
    const uint32_t *page = seen_at(pages, chain), modulus = r->originals << level;
    uint64_t least = 0;
    if (page[LEVEL] != level)
        return 0;
    for (;;) {
        if (!page_saved(r, page, chain, modulus, &least))
            return 0;
        if (!page[LINK])
            return 1;
        if (!meets(r, seen, page[LINK]))
            return 0;
        page = seen_at(pages, page[LINK] - 1);
        if (page[LEVEL] || !page[COUNT])
            return 0;
    }
}

/* All chains, of which the first next and those from N x 2^level on are split at this level; and no page behind them. */
static inline int chains_saved(const root *r, const uint32_t *pages, survey *seen)
{
    uint32_t base = r->originals << r->level, n = chains(r);
    for (uint32_t chain = 0; chain < n; chain++) {
        uint32_t level = r->level + (chain < r->next || chain >= base);
        if (!chain_saved(r, pages, seen, chain, level))
            return 0;
    }
    return all_zero(seen_at(pages, n), PAGE * (size_t)(r->primaries - n));
}

/* The free list: as many pages as the root record says, each zero but for its link. */
static inline int free_list_saved(const root *r, const uint32_t *pages, survey *seen)
{
    uint32_t count = 0;
    uint64_t any = 0;
    for (uint32_t link = r->head; link; count++) {
        if (!meets(r, seen, link))
            return 0;
        const uint32_t *page = seen_at(pages, link - 1);
        any |= two_words(page) | page[RECORDS] | four_words(page + 4) | eight_words(page + 8);
        link = page[LINK];
    }
    return !any && count == r->free;
}

/* Scratch pages, chains, free list, and no overflow page in none of them; the root record is sound. */
static inline int pages_saved(const root *r, const uint32_t *pages)
{
    survey seen;
    memset(&seen, 0, sizeof seen);
    const uint32_t *scratch = seen_at(pages, r->primaries + r->overflow);
    return all_zero(scratch, PAGE * (size_t)r->parties) && chains_saved(r, pages, &seen) &&
           free_list_saved(r, pages, &seen) && seen.count == r->overflow;
}

#endif
