/* The stack that each call takes, measured on the library that is linked. A line for each call: its name, and the most
 * bytes on chains of at most SHORT pages and on the longest.
 *
 * A call runs on a stack of its own, filled with a pattern; the lowest word that is altered says how far down it went,
 * and what an empty call of the same parameters takes is taken off. Every step is called on crafted memory in all the
 * ways below, of which one at least must perform it. There the free list may share the pages of a chain, so that a
 * chain of all the pages there are can be built anew. */
#include <stdio.h>
#include <stdlib.h>
#include <string.h>
#include <sys/mman.h>
#include <ucontext.h>

#include "bead_index.h"

/* The file, its root's level and next, and the party whose steps are measured. */
enum { N = 1, B = 6, P = 256, V = 752, Q = 16, LEVEL = 3, NEXT = 2, PARTY = 5 };
/* The last step, how many pages a short chain may have, and the words of the stack: a megabyte. */
enum { LAST_STEP = 30, SHORT = 4, STACK_WORDS = 1 << 17 };
#define PATTERN 0xa5a5a5a5a5a5a5a5u
/* The words of a page. */
enum { PAGE_LEVEL, PAGE_COUNT, PAGE_LINK, PAGE_RECORDS };

#define PARAMETERS \
    struct bead_root *root, struct bead_party *party_row, size_t parties, uint32_t *locks, size_t lock_words, \
        uint32_t *pages, size_t page_words, uint32_t *row, size_t row_words

#define LOOKED_AT \
    const struct bead_root *root, const struct bead_party *party_row, size_t parties, const uint32_t *locks, \
        size_t lock_words, const uint32_t *pages, size_t page_words, const uint32_t *row, size_t row_words

/* The calls: the library's, and those that do nothing. */
struct calls {
    uint32_t (*format)(PARAMETERS, uint32_t n, uint32_t b, uint32_t p, uint32_t v, uint32_t q);
    uint32_t (*begin)(PARAMETERS, uint32_t party, uint32_t operation, uint32_t key, uint32_t setting);
    struct bead_reply (*step)(PARAMETERS, uint32_t party);
    uint32_t (*withdraw)(PARAMETERS, uint32_t party);
    uint32_t (*take_up)(LOOKED_AT);
};

static uint32_t no_format(PARAMETERS, uint32_t n, uint32_t b, uint32_t p, uint32_t v, uint32_t q) { return 0; }
static uint32_t no_begin(PARAMETERS, uint32_t party, uint32_t operation, uint32_t key, uint32_t setting) { return 0; }
static struct bead_reply no_step(PARAMETERS, uint32_t party) { return (struct bead_reply){0}; }
static uint32_t no_withdraw(PARAMETERS, uint32_t party) { return 0; }
static uint32_t no_take_up(LOOKED_AT) { return 0; }

static const struct calls library = {bead_format, bead_begin, bead_step, bead_withdraw, bead_take_up};
static const struct calls empty = {no_format, no_begin, no_step, no_withdraw, no_take_up};

/* ---- One call on a stack of its own */

enum call { STEP, FORMAT, BEGIN, WITHDRAW, TAKE_UP };

/* The memory lent to a call, the call, and its reply. */
static struct file {
    struct bead_root root;
    struct bead_party parties[BEAD_PARTY_ROW(Q)];
    uint32_t locks[BEAD_LOCK_ROW(P)], pages[BEAD_PAGE_ROW(P, V, Q)], row[BEAD_ROW(Q)];
} lent;
static const struct calls *volatile called;
static enum call call;
static struct bead_reply reply;

static uint64_t *stack;
static ucontext_t here, there;

#define LENT \
    &lent.root, lent.parties, BEAD_PARTY_ROW(Q), lent.locks, BEAD_LOCK_ROW(P), lent.pages, BEAD_PAGE_ROW(P, V, Q), \
        lent.row, BEAD_ROW(Q)

static void perform(void)
{
    reply = (struct bead_reply){.outcome = BEAD_DONE};
    switch (call) {
    case STEP: reply = called->step(LENT, PARTY); break;
    case FORMAT: reply.refusal = called->format(LENT, N, B, P, V, Q); break;
    case BEGIN: reply.refusal = called->begin(LENT, PARTY, BEAD_INSERT, 7, 5); break;
    case WITHDRAW: reply.refusal = called->withdraw(LENT, PARTY); break;
    case TAKE_UP: reply.refusal = called->take_up(LENT); break;
    }
}

/* How much of the stack is altered, in whole words. It is filled with the pattern again. */
static size_t altered(void)
{
    uint64_t *word = stack, *end = stack + STACK_WORDS;
    while (word < end && *word == PATTERN)
        word++;
    size_t bytes = sizeof *word * (size_t)(end - word);
    while (word < end)
        *word++ = PATTERN;
    return bytes;
}

static size_t bytes_of(const struct calls *calls)
{
    called = calls;
    if (getcontext(&there) != 0)
        abort();
    there.uc_stack.ss_sp = stack;
    there.uc_stack.ss_size = sizeof *stack * STACK_WORDS;
    there.uc_link = &here;
    makecontext(&there, perform, 0);
    if (swapcontext(&here, &there) != 0)
        abort();
    return altered();
}

/* The stack, with a page below it that may not be touched. */
static void make_stack(void)
{
    const size_t guard = 4096, bytes = sizeof *stack * STACK_WORDS;
    char *room = mmap(NULL, guard + bytes, PROT_READ | PROT_WRITE, MAP_PRIVATE | MAP_ANONYMOUS, -1, 0);
    if (room == MAP_FAILED || mprotect(room, guard, PROT_NONE) != 0)
        abort();
    stack = (uint64_t *)(room + guard);
    for (size_t i = 0; i < STACK_WORDS; i++)
        stack[i] = PATTERN;
}

/* ---- Crafted memory */

/* What one way to call differs from another in, and the steps that it makes a difference to. */
enum {
    OPERATION, /* find, insert, delete */
    KEY,       /* the first in the chain, the last, behind the first, above all */
    BEHIND,    /* how far lev is below the chain's local level */
    SHARE,     /* the overflow pages are in the chain, in the other chain, or half in each */
    LAST,      /* how many records the last page of a chain has, less one */
    ROUND,     /* whether the last page links to the first overflow page: damage */
    SPREAD,    /* how far a chain's keys are apart: with it, which of them stay at a split */
    FREE,      /* whether pages are free */
    OLD,       /* whether there is an old link: the chain's first overflow page */
    OWED,      /* what is owed */
    ANSWER,    /* the answer so far: that of a change, or no page */
    ROOT,      /* level and next: some chains, all of them, the first alone */
    HELD,      /* whether the party holds every lock */
    ROW,       /* who waits: nobody, all others, the party and then all others */
    WAYS
};

#define AT(step) (1u << (step))
#define ALL UINT32_MAX
static const struct {
    uint32_t choices, steps;
} ways[WAYS] = {
    [OPERATION] = {3, ALL},
    [KEY] = {4, AT(9) | AT(10)},
    [BEHIND] = {2, AT(6)},
    [SHARE] = {3, AT(10) | AT(11) | AT(14) | AT(17) | AT(26) | AT(29)},
    [LAST] = {B, AT(10) | AT(17) | AT(26)},
    [ROUND] = {2, AT(10) | AT(11) | AT(14) | AT(17) | AT(26) | AT(29)},
    [SPREAD] = {4, AT(17)},
    [FREE] = {2, AT(10) | AT(11) | AT(14) | AT(17) | AT(29)},
    [OLD] = {2, ALL & ~(AT(12) - 1)},
    [OWED] = {4, AT(12) | AT(14)},
    [ANSWER] = {2, AT(12)},
    [ROOT] = {3, AT(16) | AT(20) | AT(21) | AT(24) | AT(27)},
    [HELD] = {2, ALL},
    [ROW] = {3, ALL},
};

/* The next way to call at a step, until there is none. */
static int next_way(uint32_t *way, uint32_t step)
{
    for (uint32_t i = 0; i < WAYS; i++) {
        if (ways[i].steps >> step & 1 && ++way[i] < ways[i].choices)
            return 1;
        way[i] = 0;
    }
    return 0;
}

static uint32_t *page_at(uint32_t number) { return lent.pages + BEAD_PAGE_WORDS * number; }

/* A chain with so many overflow pages, from a link on: its last key. The keys of two chains all differ. */
static uint32_t put_chain(const uint32_t *way, uint32_t chain, uint32_t link, uint32_t overflow)
{
    uint32_t *page = page_at(chain), key = chain, end = way[ROUND] && overflow ? link : 0;
    page[PAGE_LEVEL] = LEVEL + 1;
    for (;; overflow--, page = page_at(link++ - 1)) {
        page[PAGE_COUNT] = overflow ? B : 1 + way[LAST];
        page[PAGE_LINK] = overflow ? link : end;
        for (uint32_t i = 0; i < page[PAGE_COUNT]; i++, key += P << way[SPREAD])
            page[PAGE_RECORDS + 2 * i] = key;
        if (overflow == 0)
            return key - (P << way[SPREAD]);
    }
}

/* The free list: the pages from a link on, or all of them, whatever they are used for, where none is left. */
static void put_free(uint32_t link)
{
    uint32_t end = P + V + 1, is_left = link < end;
    lent.root.head = is_left ? link : P + 1;
    lent.root.free = end - lent.root.head;
    for (; link + 1 < end; link++)
        page_at(link - 1)[PAGE_LINK] = link + 1;
}

/* The party's record but for the key; the chains of its split or of its merge. */
static void put_party(const uint32_t *way, uint32_t step)
{
    uint32_t chains = (N << LEVEL) + NEXT, operation = BEAD_FIND + way[OPERATION], merges = step >= 23;
    struct bead_party *me = &lent.parties[PARTY];
    *me = (struct bead_party){.operation = operation, .step = step, .lev = LEVEL + 1 - way[BEHIND], .owed = way[OWED]};
    me->chain = merges ? NEXT - 1 : NEXT;
    me->other = merges ? chains - 1 : chains;
    me->old = way[OLD] ? P + 1 : 0;
    if (step >= 12)
        me->answer = way[ANSWER] ? BEAD_NO_PAGE : operation == BEAD_INSERT ? BEAD_INSERTED : BEAD_DELETED;
}

/* The row of who waits. The others in it have begun a find. */
static void put_row(const uint32_t *way)
{
    uint32_t *word = lent.row;
    if (way[ROW] == 2)
        *word++ = PARTY + 1;
    for (uint32_t party = 0; party < Q && way[ROW]; party++)
        if (party != PARTY) {
            lent.parties[party] = (struct bead_party){.operation = BEAD_FIND, .step = 1};
            *word++ = party + 1;
        }
}

/* Memory with the party before a step, its overflow pages in chains. */
static void craft(const uint32_t *way, uint32_t step, uint32_t overflow)
{
    static const uint32_t levels[3][2] = {{LEVEL, NEXT}, {8, 0}, {0, 0}};
    const uint32_t in_chain[3] = {overflow, 0, overflow / 2}, first = in_chain[way[SHARE]];
    struct bead_party *me = &lent.parties[PARTY];
    memset(&lent, 0, sizeof lent);
    lent.root = (struct bead_root){N, B, P, V, Q, levels[way[ROOT]][0], levels[way[ROOT]][1], 0, 0};
    put_party(way, step);
    put_row(way);
    const uint32_t last = put_chain(way, me->chain, P + 1, first);
    const uint32_t keys[4] = {me->chain, last, me->chain + 1, UINT32_MAX};
    me->key = keys[way[KEY]];
    put_chain(way, me->other, P + 1 + first, overflow - first);
    memcpy(page_at(P + V + PARTY), page_at(me->chain), sizeof(uint32_t) * BEAD_PAGE_WORDS);
    if (way[FREE])
        put_free(P + 1 + overflow);
    for (uint32_t i = 0; i < BEAD_LOCK_ROW(P) && way[HELD]; i++)
        lent.locks[i] = 1u << PARTY | (PARTY + 1) << 16 | (PARTY + 1) << 21;
}

/* A file at rest, of one chain with so many overflow pages. */
static void craft_saved(const uint32_t *way, uint32_t overflow)
{
    memset(&lent, 0, sizeof lent);
    lent.root = (struct bead_root){N, B, P, V, Q, 0, 0, 0, 0};
    put_chain(way, 0, P + 1, overflow);
    page_at(0)[PAGE_LEVEL] = 0;
    if (overflow < V)
        put_free(P + 1 + overflow);
}

/* ---- Measuring */

static size_t max(size_t a, size_t b) { return a > b ? a : b; }

/* The most that a call takes in any way at a step, with so many overflow pages. Refused and waiting calls count too;
 * one call at least must perform the step. */
static size_t most(const char *name, uint32_t step, uint32_t overflow)
{
    uint32_t way[WAYS] = {0}, performed = 0;
    size_t found = 0;
    do {
        if (call == TAKE_UP)
            craft_saved(way, overflow);
        else
            craft(way, step, overflow);
        if (call == BEGIN)
            lent.parties[PARTY].operation = BEAD_IDLE;
        found = max(found, bytes_of(&library));
        performed += reply.refusal == BEAD_OK && reply.outcome != BEAD_WAITING;
    } while (next_way(way, step));
    if (performed == 0) {
        fprintf(stderr, "stack: no way to call %s at step %u performs it\n", name, (unsigned)step);
        exit(1);
    }
    return found;
}

/* Prints a call's line: the most from a step to another. No withdraw comes before step 9: a find is decided there. */
static void print(const char *name, uint32_t first, uint32_t last)
{
    size_t alone = bytes_of(&empty), on_short = 0, on_longest = 0;
    for (uint32_t step = first; step <= last; step++) {
        if (call == WITHDRAW && step == 9)
            continue;
        for (uint32_t overflow = 0; overflow < SHORT; overflow++)
            on_short = max(on_short, most(name, step, overflow));
        on_longest = max(on_longest, most(name, step, V));
    }
    printf("%s %zu %zu\n", name, on_short - alone, on_longest - alone);
}

int main(void)
{
    char name[16];
    make_stack();
    call = FORMAT;
    print("format", 1, 1);
    call = BEGIN;
    print("begin", 1, 1);
    call = WITHDRAW;
    print("withdraw", 1, 11);
    call = TAKE_UP;
    print("take-up", 1, 1);
    call = STEP;
    for (uint32_t step = 1; step <= LAST_STEP; step++) {
        snprintf(name, sizeof name, "step %u", (unsigned)step);
        print(name, step, step);
    }
    return 0;
}
