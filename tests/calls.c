/* How many calls an operation takes (document 02, change 8), counted through include/bead_index.h: the runs that take
 * the most. A find, an insert and a delete are held before step 4 while the file grows from one chain to 256, so that
 * each is led on eight times; a find walks through a file taken up whose one chain has all V overflow pages, for every
 * V. No call of these runs waits or is refused. C11, and C++ as well. Prints one line, or each check that fails. */
#include <stdio.h>
#include <string.h>

#include "bead_index.h"

enum { P = 256, PARTIES = 3, KEYS_EACH = 3 };

/* What is lent: rows long enough for every file here, of which the sizes say how much. */
struct memory {
    struct bead_root root;
    struct bead_party parties[BEAD_PARTY_ROW(PARTIES)];
    uint32_t locks[BEAD_LOCK_ROW(P)];
    uint32_t pages[BEAD_PAGE_ROW(P, BEAD_MOST_OVERFLOW, PARTIES)];
    uint32_t row[BEAD_ROW(PARTIES)];
};
static struct memory file;

/* The lengths that the root record's sizes ask for, and the five parts. */
#define ROOT file.root
#define LENT                                                                                                 \
    &ROOT, file.parties, BEAD_PARTY_ROW(ROOT.parties), file.locks, BEAD_LOCK_ROW(ROOT.primaries), file.pages, \
        BEAD_PAGE_ROW(ROOT.primaries, ROOT.overflow, ROOT.parties), file.row, BEAD_ROW(ROOT.parties)

static unsigned checks, failures;
#define CHECK(condition) check((condition) != 0, #condition, __LINE__)
static void check(int holds, const char *condition, int line)
{
    checks++;
    if (!holds) {
        failures++;
        printf("calls.c:%d: not so: %s\n", line, condition);
    }
}

/* An empty file of one record a page and three parties. */
static void make(uint32_t n, uint32_t p, uint32_t v)
{
    ROOT.primaries = p;
    ROOT.overflow = v;
    ROOT.parties = PARTIES;
    CHECK(bead_format(LENT, n, 1, p, v, PARTIES) == BEAD_OK);
}

/* The calls that a party's operation has taken. */
static unsigned taken[PARTIES];

static void begin(uint32_t party, uint32_t operation, uint32_t key)
{
    taken[party] = 0;
    CHECK(bead_begin(LENT, party, operation, key, ~key) == BEAD_OK);
}

/* Steps a party until its record has a step number, 0 where it is done; it is given up beyond the longest find. */
static struct bead_reply step_until(uint32_t party, uint32_t number)
{
    struct bead_reply reply;
    do {
        reply = bead_step(LENT, party);
        CHECK(reply.refusal == BEAD_OK && reply.outcome != BEAD_WAITING);
        taken[party]++;
    } while (reply.outcome == BEAD_MOVED && file.parties[party].step != number &&
             taken[party] <= BEAD_MOST_FIND(BEAD_MOST_OVERFLOW));
    return reply;
}

/* Whether a reply is done, with this answer and restructuring. */
static int is_done(struct bead_reply reply, uint32_t answer, uint32_t restructuring)
{
    return reply.outcome == BEAD_DONE && reply.answer == answer && reply.restructuring == restructuring;
}

/* Party 1's operation from its begin to its end, with what it must come to. */
static void run(uint32_t operation, uint32_t key, uint32_t answer, uint32_t restructuring)
{
    begin(1, operation, key);
    CHECK(is_done(step_until(1, 0), answer, restructuring));
}

/* Keys by the chain that they have among 256: the low byte of the mixed key. */
static uint32_t keys[P][KEYS_EACH];

/* Takes them from the library: a find in a file of 256 chains has fixed its chain once it stands before step 4. */
static void choose_keys(void)
{
    static unsigned known[P];
    make(P, P, 0);
    for (uint32_t key = 0, left = P * KEYS_EACH; left > 0; key++) {
        begin(0, BEAD_FIND, key);
        step_until(0, 4);
        uint32_t chain = file.parties[0].chain;
        CHECK(bead_withdraw(LENT, 0) == BEAD_OK);
        if (known[chain] < KEYS_EACH) {
            keys[chain][known[chain]++] = key;
            left--;
        }
    }
}

/* Party 1 lets a file of one empty chain grow to 256. One key stays in chain 0; a second one there takes an overflow
 * page, which owes a split. Where chain 0 itself is split the second goes to the new chain, else it is deleted. */
static void grow(void)
{
    run(BEAD_INSERT, keys[0][0], BEAD_INSERTED, BEAD_NO_RESTRUCTURING);
    while (ROOT.level < 8) {
        uint32_t parts = ROOT.next == 0, local = ROOT.level + !parts;
        uint32_t key = local < 8 ? keys[1u << local][0] : keys[0][1];
        run(BEAD_INSERT, key, BEAD_INSERTED, BEAD_SPLIT);
        if (!parts)
            run(BEAD_DELETE, key, BEAD_DELETED, BEAD_NO_RESTRUCTURING);
    }
}

/* Party 0 begins in a file of one chain and is held before step 4 until there are 256. */
static void hold_while_growing(uint32_t v, uint32_t operation, uint32_t key)
{
    make(1, P, v);
    begin(0, operation, key);
    step_until(0, 4);
    grow();
}

/* A find led on eight times, to a chain with an overflow page: 31 + V for V = 1. */
static void test_find(void)
{
    hold_while_growing(1, BEAD_FIND, keys[255][1]);
    run(BEAD_INSERT, keys[255][0], BEAD_INSERTED, BEAD_NO_RESTRUCTURING);
    run(BEAD_INSERT, keys[255][1], BEAD_INSERTED, BEAD_SPLIT_SKIPPED);
    CHECK(is_done(step_until(0, 0), BEAD_FOUND, BEAD_NO_RESTRUCTURING));
    CHECK(taken[0] == BEAD_MOST_FIND(1));
    CHECK(bead_take_up(LENT) == BEAD_OK);
}

/* An insert led on eight times that gives back the old page of its chain and stands before 15. There others merge
 * chain 255 into 127, since at P chains the split would be barred, and give 127 an overflow page. So the insert splits
 * 127, and gives that page back. */
static void test_insert(void)
{
    hold_while_growing(8, BEAD_INSERT, keys[255][2]);
    run(BEAD_INSERT, keys[255][0], BEAD_INSERTED, BEAD_NO_RESTRUCTURING);
    run(BEAD_INSERT, keys[255][1], BEAD_INSERTED, BEAD_SPLIT_SKIPPED);
    step_until(0, 15);
    CHECK(taken[0] == 35);
    run(BEAD_DELETE, keys[255][0], BEAD_DELETED, BEAD_NO_RESTRUCTURING);
    run(BEAD_DELETE, keys[255][1], BEAD_DELETED, BEAD_NO_RESTRUCTURING);
    run(BEAD_DELETE, keys[255][2], BEAD_DELETED, BEAD_MERGED);
    run(BEAD_INSERT, keys[127][0], BEAD_INSERTED, BEAD_NO_RESTRUCTURING);
    begin(2, BEAD_INSERT, keys[127][1]);
    step_until(2, 15);
    CHECK(is_done(step_until(0, 0), BEAD_INSERTED, BEAD_SPLIT));
    CHECK(taken[0] == BEAD_MOST_INSERT);
    CHECK(is_done(step_until(2, 0), BEAD_INSERTED, BEAD_SPLIT_SKIPPED));
    CHECK(bead_take_up(LENT) == BEAD_OK);
}

/* A delete led on eight times that empties its chain, and merges. It has no old pages then: two calls fewer than the
 * figure. */
static void test_delete(void)
{
    hold_while_growing(1, BEAD_DELETE, keys[255][0]);
    run(BEAD_INSERT, keys[255][0], BEAD_INSERTED, BEAD_NO_RESTRUCTURING);
    CHECK(is_done(step_until(0, 0), BEAD_DELETED, BEAD_MERGED));
    CHECK(taken[0] == BEAD_MOST_DELETE - 2);
    CHECK(bead_take_up(LENT) == BEAD_OK);
}

/* A file of one chain with the keys 0 to V, a page each, as it may have been saved: no page is free. A find of the last
 * key takes 7 + V calls. */
static void test_taken_up(uint32_t v)
{
    make(1, 1, v);
    ROOT.head = ROOT.free = 0;
    for (uint32_t place = 0; place <= v; place++) {
        const uint32_t words[] = {0, 1, place < v ? place + 2 : 0, place, ~place};
        memcpy(file.pages + BEAD_PAGE_WORDS * place, words, sizeof words);
    }
    CHECK(bead_take_up(LENT) == BEAD_OK);
    begin(0, BEAD_FIND, v);
    CHECK(is_done(step_until(0, 0), BEAD_FOUND, BEAD_NO_RESTRUCTURING));
    CHECK(taken[0] == 7 + v);
}

int main(void)
{
    choose_keys();
    test_find();
    test_insert();
    test_delete();
    for (uint32_t v = 0; v <= BEAD_MOST_OVERFLOW; v++)
        test_taken_up(v);
    if (failures == 0)
        printf("calls: a find of 31 + V calls with V = 1, an insert of 45, a delete of 41; finds of 7 + V in files "
               "taken up, for every V: %u checks\n",
               checks);
    return failures != 0;
}
