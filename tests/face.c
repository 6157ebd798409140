/* The C face of the index, tested through include/bead_index.h: every refusal in the table's order with every lent word
 * as it was, every outcome, answer and restructuring by its name, each field of both records and the row of who waits
 * in its place, operations withdrawn with every lent word as before their begin, a party that waits and is not
 * overtaken, files taken up at rest and refused elsewhere, and words beside the lent rows that no call touches. C11,
 * and C++ as well. Prints one line, or each check that fails. */
#include <stdio.h>
#include <string.h>

#include "bead_index.h"

/* The largest sizes that a test uses. */
enum { MOST_P = 256, MOST_V = 752, MOST_Q = 16, GUARDS = 16 };
#define GUARD 0xB0A7B0A7u

/* The lent memory, each part between guard words. The rows are as long as the largest file needs; where a smaller one
 * is lent, what lies behind it is guarded too. */
struct memory {
    uint32_t before_root[GUARDS];
    struct bead_root root;
    uint32_t before_parties[GUARDS];
    struct bead_party parties[BEAD_PARTY_ROW(MOST_Q)];
    uint32_t before_locks[GUARDS];
    uint32_t locks[BEAD_LOCK_ROW(MOST_P)];
    uint32_t before_pages[GUARDS];
    uint32_t pages[BEAD_PAGE_ROW(MOST_P, MOST_V, MOST_Q)];
    uint32_t before_row[GUARDS];
    uint32_t row[BEAD_ROW(MOST_Q)];
    uint32_t after_row[GUARDS];
};
static struct memory file, before;

/* The lengths of the rows for the sizes of `start`; and the lengths lent, the same but where a test says otherwise. */
static size_t party_row, lock_row, page_row, waiting_row;
static size_t parties, lock_words, page_words, row_words;
#define LENT &file.root, file.parties, parties, file.locks, lock_words, file.pages, page_words, file.row, row_words

static unsigned checks, failures;
#define CHECK(condition) check((condition) != 0, #condition, __LINE__)
static void check(int holds, const char *condition, int line)
{
    checks++;
    if (!holds) {
        failures++;
        printf("face.c:%d: not so: %s\n", line, condition);
    }
}

/* Guard words everywhere, the root record zero, and the lengths for the sizes P V Q. */
static void start(uint32_t p, uint32_t v, uint32_t q)
{
    uint32_t *words = (uint32_t *)(void *)&file;
    for (size_t i = 0; i < sizeof file / sizeof *words; i++)
        words[i] = GUARD;
    memset(&file.root, 0, sizeof file.root);
    parties = party_row = BEAD_PARTY_ROW(q);
    lock_words = lock_row = BEAD_LOCK_ROW(p);
    page_words = page_row = BEAD_PAGE_ROW(p, v, q);
    row_words = waiting_row = BEAD_ROW(q);
}

/* Whether words hold guards alone. */
static int guarded(const void *from, const void *to)
{
    const uint32_t *word = (const uint32_t *)from;
    while (word < (const uint32_t *)to)
        if (*word++ != GUARD)
            return 0;
    return 1;
}

/* Whether no word outside the rows was touched. */
static int kept_inside(void)
{
    return guarded(file.before_root, &file.root) && guarded(file.before_parties, file.parties) &&
           guarded(file.parties + party_row, file.locks) && guarded(file.locks + lock_row, file.pages) &&
           guarded(file.pages + page_row, file.row) && guarded(file.row + waiting_row, &file + 1);
}

/* Remembers every word, and tells whether all are as remembered. */
static void remember(void) { memcpy(&before, &file, sizeof file); }
static int unaltered(void) { return memcmp(&before, &file, sizeof file) == 0; }

/* Where a party stands among those who wait, the first at 0; how many they are, where it does not. */
static size_t place_of(uint32_t party, const uint32_t *row)
{
    size_t place = 0;
    while (place < waiting_row && row[place] != 0 && row[place] != party + 1)
        place++;
    return place;
}

/* Whether a party is among them. */
static int waits(uint32_t party)
{
    size_t place = place_of(party, file.row);
    return place < waiting_row && file.row[place] == party + 1;
}

/* Whether no word but of the row was altered, and of it only that the party is in it, behind the others. */
static int joined_at_most(uint32_t party)
{
    size_t place = place_of(party, before.row);
    if (place == waiting_row)
        return 0;
    before.row[place] = party + 1;
    return unaltered();
}

/* The setting that a key is begun with. */
#define SETTING(key) (~(key))

/* The five calls; each sees to the guards, that a refusal or a take-up alters nothing, that a wait alters the row of
 * who waits at most, and that a party which moves or is withdrawn is not in it. */
static uint32_t format(uint32_t n, uint32_t b, uint32_t p, uint32_t v, uint32_t q)
{
    remember();
    uint32_t refusal = bead_format(LENT, n, b, p, v, q);
    CHECK(kept_inside());
    CHECK(refusal == BEAD_OK || unaltered());
    return refusal;
}

static uint32_t begin(uint32_t party, uint32_t operation, uint32_t key)
{
    remember();
    uint32_t refusal = bead_begin(LENT, party, operation, key, SETTING(key));
    CHECK(kept_inside());
    CHECK(refusal == BEAD_OK || unaltered());
    return refusal;
}

static struct bead_reply step(uint32_t party)
{
    remember();
    struct bead_reply reply = bead_step(LENT, party);
    CHECK(kept_inside());
    CHECK(reply.refusal == BEAD_OK || unaltered());
    if (reply.refusal == BEAD_OK && reply.outcome == BEAD_WAITING)
        CHECK(joined_at_most(party));
    else
        CHECK(reply.refusal != BEAD_OK || !waits(party));
    CHECK(reply.refusal == BEAD_OK || reply.outcome == 0);
    CHECK(reply.outcome == BEAD_DONE || (reply.answer == BEAD_NO_ANSWER && reply.restructuring == 0));
    CHECK(reply.answer == BEAD_FOUND || reply.setting == 0);
    return reply;
}

static uint32_t withdraw(uint32_t party)
{
    remember();
    uint32_t refusal = bead_withdraw(LENT, party);
    CHECK(kept_inside());
    CHECK(refusal == BEAD_OK ? !waits(party) : unaltered());
    return refusal;
}

static uint32_t take_up(void)
{
    remember();
    uint32_t refusal = bead_take_up(LENT);
    CHECK(unaltered());
    return refusal;
}

/* A formatted file. */
static void make(uint32_t n, uint32_t b, uint32_t p, uint32_t v, uint32_t q)
{
    start(p, v, q);
    CHECK(format(n, b, p, v, q) == BEAD_OK);
}

/* Steps a party until its record has a step number; 0 is that of a party that is done. */
static struct bead_reply step_until(uint32_t party, uint32_t number)
{
    struct bead_reply reply;
    do
        reply = step(party);
    while (reply.outcome == BEAD_MOVED && file.parties[party].step != number);
    return reply;
}

/* Whether party 0's operation, run alone, ends with an answer and a restructuring, a find with the key's setting. */
static int ends(uint32_t operation, uint32_t key, uint32_t answer, uint32_t restructuring)
{
    if (begin(0, operation, key) != BEAD_OK)
        return 0;
    struct bead_reply reply = step_until(0, 0);
    return reply.refusal == BEAD_OK && reply.outcome == BEAD_DONE && reply.answer == answer &&
           reply.restructuring == restructuring && (answer != BEAD_FOUND || reply.setting == SETTING(key));
}

/* The four lengths, one by one too short and too long, and what a call says to it; all are right again afterwards. */
static void test_lengths(uint32_t (*refusal)(void))
{
    size_t *lengths[] = {&parties, &lock_words, &page_words, &row_words};
    for (int i = 0; i < 4; i++) {
        *lengths[i] -= 1;
        CHECK(refusal() == BEAD_LENGTH_REFUSED);
        *lengths[i] += 2;
        CHECK(refusal() == BEAD_LENGTH_REFUSED);
        *lengths[i] -= 1;
    }
}
static uint32_t format_refusal(void) { return format(2, 3, 8, 8, 4); }
static uint32_t begin_refusal(void) { return begin(0, BEAD_FIND, 7); }
static uint32_t step_refusal(void) { return step(0).refusal; }
static uint32_t withdraw_refusal(void) { return withdraw(0); }
static uint32_t take_up_refusal(void) { return take_up(); }

/* Format: limits, each size, each length, and sizes before lengths. */
static void test_format(void)
{
    make(MOST_P, BEAD_MOST_RECORDS, BEAD_MOST_PRIMARIES, BEAD_MOST_OVERFLOW, BEAD_MOST_PARTIES);
    make(1, 1, 1, 0, 1);
    start(8, 8, 4);
    CHECK(format(0, 3, 8, 8, 4) == BEAD_SIZE_REFUSED);
    CHECK(format(9, 3, 8, 8, 4) == BEAD_SIZE_REFUSED);
    CHECK(format(2, 0, 8, 8, 4) == BEAD_SIZE_REFUSED);
    CHECK(format(2, BEAD_MOST_RECORDS + 1, 8, 8, 4) == BEAD_SIZE_REFUSED);
    CHECK(format(2, 3, 0, 8, 4) == BEAD_SIZE_REFUSED);
    CHECK(format(2, 3, BEAD_MOST_PRIMARIES + 1, 8, 4) == BEAD_SIZE_REFUSED);
    CHECK(format(2, 3, 8, BEAD_MOST_OVERFLOW + 1, 4) == BEAD_SIZE_REFUSED);
    CHECK(format(2, 3, 8, UINT32_MAX, 4) == BEAD_SIZE_REFUSED);
    CHECK(format(2, 3, 8, 8, 0) == BEAD_SIZE_REFUSED);
    CHECK(format(2, 3, 8, 8, BEAD_MOST_PARTIES + 1) == BEAD_SIZE_REFUSED);
    test_lengths(format_refusal);
    CHECK(format(2, 3, 8, 8, 4) == BEAD_OK);
    CHECK(file.root.originals == 2 && file.root.capacity == 3 && file.root.primaries == 8);
    CHECK(file.root.overflow == 8 && file.root.parties == 4 && file.root.level == 0);
    CHECK(file.root.next == 0 && file.root.head == 9 && file.root.free == 8);
}

/* Begin: everything is wrong at first, and is mended in the order of the tests. */
static void test_begin(void)
{
    start(8, 8, 4);
    parties--;
    const uint32_t none[] = {BEAD_IDLE, BEAD_DELETE + 1, BEAD_NO_OPERATION, UINT32_MAX};
    for (size_t i = 0; i < sizeof none / sizeof *none; i++)
        CHECK(begin(4, none[i], 7) == BEAD_NO_OPERATION);
    CHECK(begin(4, BEAD_FIND, 7) == BEAD_SIZE_REFUSED);
    parties++;
    CHECK(format(2, 3, 8, 8, 4) == BEAD_OK);
    parties--;
    CHECK(begin(4, BEAD_FIND, 7) == BEAD_LENGTH_REFUSED);
    parties++;
    test_lengths(begin_refusal);
    CHECK(begin(4, BEAD_FIND, 7) == BEAD_PARTY_REFUSED);
    CHECK(begin(UINT32_MAX, BEAD_FIND, 7) == BEAD_PARTY_REFUSED);
    CHECK(begin(3, BEAD_INSERT, UINT32_MAX) == BEAD_OK);
    CHECK(file.parties[3].operation == BEAD_INSERT && file.parties[3].key == UINT32_MAX && file.parties[3].step == 1);
    CHECK(begin(2, BEAD_INSERT, 7) == BEAD_OK && file.parties[2].setting == SETTING(7u));
    CHECK(begin(1, BEAD_DELETE, 7) == BEAD_OK && file.parties[1].setting == 0);
    CHECK(begin(0, BEAD_FIND, 7) == BEAD_OK && file.parties[0].setting == 0);
    CHECK(begin(3, BEAD_INSERT, 7) == BEAD_BUSY_REFUSED);
    CHECK(begin(3, BEAD_IDLE, 7) == BEAD_NO_OPERATION);
}

/* Step: likewise. */
static void test_step(void)
{
    start(8, 8, 4);
    page_words++;
    CHECK(step(4).refusal == BEAD_SIZE_REFUSED);
    page_words--;
    CHECK(format(2, 3, 8, 8, 4) == BEAD_OK);
    page_words++;
    CHECK(step(4).refusal == BEAD_LENGTH_REFUSED);
    page_words--;
    test_lengths(step_refusal);
    file.root.level = 9;
    CHECK(step(4).refusal == BEAD_PARTY_REFUSED);
    CHECK(step(UINT32_MAX).refusal == BEAD_PARTY_REFUSED);
    CHECK(step(3).refusal == BEAD_IDLE_REFUSED);
    CHECK(begin(3, BEAD_FIND, 7) == BEAD_OK);
    CHECK(step(3).refusal == BEAD_DAMAGE);
    file.root.level = 0;
    CHECK(step(3).outcome == BEAD_MOVED);
}

/* Withdraw: likewise; a decided operation is refused before damage is. */
static void test_withdraw(void)
{
    start(8, 8, 4);
    lock_words++;
    CHECK(withdraw(4) == BEAD_SIZE_REFUSED);
    lock_words--;
    CHECK(format(2, 3, 8, 8, 4) == BEAD_OK);
    lock_words++;
    CHECK(withdraw(4) == BEAD_LENGTH_REFUSED);
    lock_words--;
    test_lengths(withdraw_refusal);
    CHECK(withdraw(4) == BEAD_PARTY_REFUSED);
    CHECK(withdraw(UINT32_MAX) == BEAD_PARTY_REFUSED);
    file.root.level = 9;
    CHECK(withdraw(3) == BEAD_IDLE_REFUSED);
    file.root.level = 0;
    CHECK(begin(3, BEAD_FIND, 7) == BEAD_OK);
    CHECK(step_until(3, 9).outcome == BEAD_MOVED);
    file.root.level = 9;
    CHECK(withdraw(3) == BEAD_DECIDED_REFUSED);
    file.parties[3].step = 1;
    CHECK(withdraw(3) == BEAD_DAMAGE);
    file.parties[3].operation = BEAD_DELETE;
    file.parties[3].step = 31;
    CHECK(withdraw(3) == BEAD_DECIDED_REFUSED);
}

/* Take-up: sizes before lengths, and both before what the words are. */
static void test_take_up(void)
{
    start(8, 8, 4);
    parties--;
    CHECK(take_up() == BEAD_SIZE_REFUSED);
    parties++;
    CHECK(format(2, 3, 8, 8, 4) == BEAD_OK);
    CHECK(take_up() == BEAD_OK);
    file.parties[3].setting = 1;
    test_lengths(take_up_refusal);
    file.root.capacity = 0;
    CHECK(take_up() == BEAD_SIZE_REFUSED);
    file.root.capacity = 3;
    CHECK(take_up() == BEAD_UNSAVED_REFUSED);
    file.parties[3].setting = 0;
    CHECK(take_up() == BEAD_OK);
}

/* A word put in another's place is refused 8; afterwards the file is at rest again. */
static void test_unsaved(uint32_t *place, uint32_t word)
{
    uint32_t sound = *place;
    *place = word;
    CHECK(sound != word && take_up() == BEAD_UNSAVED_REFUSED);
    *place = sound;
}

/* A file at rest is taken up and gone on with; with an operation under way, or a word altered, it is not. Key 5 is on
 * the page of chain 0, keys 4 and 7 on the two of chain 1, so any word but their settings tells. */
static void test_taken_up(void)
{
    enum { SETTING_OF_5 = 4, SETTING_OF_4 = BEAD_PAGE_WORDS + 4, SETTING_OF_7 = 4 * BEAD_PAGE_WORDS + 4 };
    make(1, 1, 4, 4, 2);
    CHECK(ends(BEAD_INSERT, 4, BEAD_INSERTED, BEAD_NO_RESTRUCTURING));
    CHECK(ends(BEAD_INSERT, 5, BEAD_INSERTED, BEAD_SPLIT));
    CHECK(take_up() == BEAD_OK);
    CHECK(begin(1, BEAD_INSERT, 7) == BEAD_OK);
    do
        CHECK(take_up() == BEAD_UNSAVED_REFUSED);
    while (step(1).outcome == BEAD_MOVED);
    CHECK(take_up() == BEAD_OK);
    test_unsaved(&file.root.level, 0);
    test_unsaved(&file.root.next, file.root.next + 1);
    test_unsaved(&file.root.head, 0);
    test_unsaved(&file.root.free, file.root.free - 1);
    test_unsaved(&file.parties[1].key, 7);
    test_unsaved(&file.locks[4], UINT32_C(1) << 31);
    for (size_t i = 0; i < waiting_row; i++)
        test_unsaved(&file.row[i], 1);
    for (size_t i = 0; i < page_row; i++)
        if (i != SETTING_OF_5 && i != SETTING_OF_4 && i != SETTING_OF_7)
            test_unsaved(&file.pages[i], file.pages[i] ^ UINT32_C(1) << 31);
    file.pages[SETTING_OF_5] ^= 1;
    CHECK(take_up() == BEAD_OK);
    CHECK(begin(0, BEAD_FIND, 5) == BEAD_OK);
    CHECK(step_until(0, 0).setting == (SETTING(5u) ^ 1));
    CHECK(ends(BEAD_FIND, 7, BEAD_FOUND, BEAD_NO_RESTRUCTURING));
}

/* A party's operation, begun and stepped up to a step number, is withdrawn; every word is as before its begin. */
static void test_taken_back(uint32_t operation, uint32_t key, uint32_t number)
{
    static struct memory found;
    memcpy(&found, &file, sizeof file);
    CHECK(begin(0, operation, key) == BEAD_OK);
    if (number != 1)
        CHECK(step_until(0, number).outcome == BEAD_MOVED && file.parties[0].step == number);
    CHECK(withdraw(0) == BEAD_OK);
    CHECK(memcmp(&found, &file, sizeof file) == 0);
}

/* Each operation withdrawn before each step up to its decisive one, and refused from there on. At step 11 the insert
 * has built three overflow pages, the delete one. */
static void test_withdrawn(void)
{
    const uint32_t before_change[] = {1, 2, 3, 4, 5, 6, 10, 11};
    make(1, 1, 1, 5, 1);
    CHECK(ends(BEAD_INSERT, 4, BEAD_INSERTED, BEAD_NO_RESTRUCTURING));
    CHECK(ends(BEAD_INSERT, 6, BEAD_INSERTED, BEAD_SPLIT_SKIPPED));
    CHECK(ends(BEAD_INSERT, 8, BEAD_INSERTED, BEAD_SPLIT_SKIPPED));
    for (uint32_t number = 1; number <= 6; number++)
        test_taken_back(BEAD_FIND, 4, number);
    for (size_t i = 0; i < sizeof before_change / sizeof *before_change; i++) {
        test_taken_back(BEAD_INSERT, 5, before_change[i]);
        test_taken_back(BEAD_DELETE, 6, before_change[i]);
    }
    CHECK(begin(0, BEAD_INSERT, 5) == BEAD_OK);
    CHECK(step_until(0, 12).outcome == BEAD_MOVED);
    while (file.parties[0].operation != BEAD_IDLE) {
        CHECK(withdraw(0) == BEAD_DECIDED_REFUSED);
        CHECK(step(0).refusal == BEAD_OK);
    }
    CHECK(withdraw(0) == BEAD_IDLE_REFUSED);
    CHECK(ends(BEAD_FIND, 5, BEAD_FOUND, BEAD_NO_RESTRUCTURING));
}

/* A word put in another's place is damage to a step, to a withdraw or to both; afterwards the memory is sound again. */
static void test_damaged(uint32_t *place, uint32_t word)
{
    uint32_t sound = *place;
    *place = word;
    CHECK(step(0).refusal == BEAD_DAMAGE);
    *place = sound;
}
static void test_withdraw_damaged(uint32_t *place, uint32_t word)
{
    uint32_t sound = *place;
    *place = word;
    CHECK(withdraw(0) == BEAD_DAMAGE);
    *place = sound;
}
static void test_both_damaged(uint32_t *place, uint32_t word)
{
    test_damaged(place, word);
    test_withdraw_damaged(place, word);
}

/* The fields of both records, each found by the damage that a word there alone can be. */
static void test_damage(void)
{
    make(1, 1, 2, 2, 1);
    CHECK(ends(BEAD_INSERT, 4, BEAD_INSERTED, BEAD_NO_RESTRUCTURING));
    CHECK(begin(0, BEAD_INSERT, 6) == BEAD_OK);
    test_both_damaged(&file.root.level, 9);
    test_both_damaged(&file.root.next, 1);
    test_both_damaged(&file.root.free, 3);
    test_both_damaged(&file.parties[0].operation, BEAD_DELETE + 1);
    test_both_damaged(&file.parties[0].step, 9);
    test_damaged(&file.parties[0].step, 31);
    test_both_damaged(&file.parties[0].lev, 10);
    test_both_damaged(&file.parties[0].chain, 2);
    test_both_damaged(&file.parties[0].other, 2);
    test_both_damaged(&file.parties[0].owed, 4);
    test_both_damaged(&file.parties[0].answer, BEAD_FOUND);
    CHECK(step_until(0, 10).outcome == BEAD_MOVED);
    test_damaged(&file.root.head, 0);
    CHECK(step_until(0, 11).outcome == BEAD_MOVED);
    test_withdraw_damaged(&file.locks[1], 0);
    test_withdraw_damaged(&file.root.free, 2);
    CHECK(step_until(0, 12).outcome == BEAD_MOVED);
    CHECK(file.parties[0].answer == BEAD_INSERTED && file.parties[0].owed == 1 && file.parties[0].old == 0);
    test_damaged(&file.parties[0].answer, BEAD_NO_ANSWER);
    file.parties[0].old = 1;
    CHECK(step(0).outcome == BEAD_MOVED && file.parties[0].step == 13);
    CHECK(step(0).refusal == BEAD_DAMAGE);
}

/* The row of who waits, in which party 1 is: a gap, a word above Q, a party twice, one that is idle, one whose next
 * step requests no lock. A begin does not look at it. */
static void test_row_damage(void)
{
    make(1, 2, 2, 2, 3);
    CHECK(begin(0, BEAD_INSERT, 4) == BEAD_OK);
    CHECK(begin(1, BEAD_DELETE, 4) == BEAD_OK);
    CHECK(step_until(0, 11).outcome == BEAD_MOVED);
    CHECK(step_until(1, 0).outcome == BEAD_WAITING);
    CHECK(file.row[0] == 2 && file.row[1] == 0 && file.row[2] == 0);
    test_both_damaged(&file.row[2], 2);
    const uint32_t wrong[] = {4, UINT32_MAX, 2, 3, 1};
    for (size_t i = 0; i < sizeof wrong / sizeof *wrong; i++)
        test_both_damaged(&file.row[1], wrong[i]);
    file.row[2] = UINT32_MAX;
    CHECK(begin(2, BEAD_FIND, 4) == BEAD_OK);
    file.row[2] = 0;
    CHECK(step_until(0, 0).answer == BEAD_INSERTED);
    CHECK(step_until(1, 0).answer == BEAD_DELETED);
}

/* Every answer and every restructuring; a merge is skipped at N chains, and where the records of both chains do not
 * fit. */
static void test_answers(void)
{
    make(1, 1, 2, 4, 1);
    CHECK(ends(BEAD_FIND, 4, BEAD_ABSENT, BEAD_NO_RESTRUCTURING));
    CHECK(ends(BEAD_DELETE, 4, BEAD_ABSENT, BEAD_NO_RESTRUCTURING));
    CHECK(ends(BEAD_INSERT, 4, BEAD_INSERTED, BEAD_NO_RESTRUCTURING));
    CHECK(ends(BEAD_INSERT, 4, BEAD_PRESENT, BEAD_NO_RESTRUCTURING));
    CHECK(ends(BEAD_FIND, 4, BEAD_FOUND, BEAD_NO_RESTRUCTURING));
    CHECK(ends(BEAD_DELETE, 4, BEAD_DELETED, BEAD_MERGE_SKIPPED));
    CHECK(ends(BEAD_INSERT, 4, BEAD_INSERTED, BEAD_NO_RESTRUCTURING));
    CHECK(ends(BEAD_INSERT, 5, BEAD_INSERTED, BEAD_SPLIT));
    CHECK(ends(BEAD_INSERT, 7, BEAD_INSERTED, BEAD_SPLIT_SKIPPED));
    CHECK(ends(BEAD_DELETE, 5, BEAD_DELETED, BEAD_MERGE_SKIPPED));
    CHECK(ends(BEAD_INSERT, 5, BEAD_INSERTED, BEAD_NO_RESTRUCTURING));
    CHECK(ends(BEAD_DELETE, 7, BEAD_DELETED, BEAD_NO_RESTRUCTURING));
    CHECK(ends(BEAD_DELETE, 5, BEAD_DELETED, BEAD_MERGED));
    CHECK(ends(BEAD_FIND, 4, BEAD_FOUND, BEAD_NO_RESTRUCTURING));
    make(1, 1, 1, 0, 1);
    CHECK(ends(BEAD_INSERT, 4, BEAD_INSERTED, BEAD_NO_RESTRUCTURING));
    CHECK(ends(BEAD_INSERT, 5, BEAD_NO_PAGE, BEAD_NO_RESTRUCTURING));
    CHECK(ends(BEAD_FIND, 5, BEAD_ABSENT, BEAD_NO_RESTRUCTURING));
}

/* Settings: an insert of a present key keeps the old one, a delete takes it away, and any number is one. */
static void test_settings(void)
{
    const uint32_t settings[] = {5, 0, UINT32_MAX};
    make(1, 1, 2, 4, 1);
    for (size_t i = 0; i < sizeof settings / sizeof *settings; i++) {
        CHECK(bead_begin(LENT, 0, BEAD_INSERT, 7, settings[i]) == BEAD_OK);
        CHECK(step_until(0, 0).answer == BEAD_INSERTED);
        CHECK(ends(BEAD_INSERT, 7, BEAD_PRESENT, BEAD_NO_RESTRUCTURING));
        CHECK(begin(0, BEAD_FIND, 7) == BEAD_OK);
        struct bead_reply reply = step_until(0, 0);
        CHECK(reply.answer == BEAD_FOUND && reply.setting == settings[i]);
        CHECK(ends(BEAD_DELETE, 7, BEAD_DELETED, BEAD_MERGE_SKIPPED));
        CHECK(ends(BEAD_FIND, 7, BEAD_ABSENT, BEAD_NO_RESTRUCTURING));
    }
}

/* A party that wants a chain that another changes waits; a reader does not. */
static void test_waiting(void)
{
    make(1, 2, 2, 2, 3);
    CHECK(begin(0, BEAD_INSERT, 4) == BEAD_OK);
    CHECK(begin(1, BEAD_DELETE, 4) == BEAD_OK);
    CHECK(begin(2, BEAD_FIND, 4) == BEAD_OK);
    CHECK(step_until(0, 11).outcome == BEAD_MOVED);
    struct bead_reply reply = step_until(1, 0);
    CHECK(reply.refusal == BEAD_OK && reply.outcome == BEAD_WAITING && file.parties[1].step == 4);
    CHECK(step_until(2, 0).answer == BEAD_ABSENT);
    CHECK(step_until(0, 0).answer == BEAD_INSERTED);
    CHECK(step_until(1, 0).answer == BEAD_DELETED);
}

/* An export that waits to give pages back, behind a preview, is not overtaken by a preview that comes later, though the
 * locks held permit it; nor by a third one, whose wait is withdrawn. */
static void test_overtaking(void)
{
    make(1, 1, 1, 4, 4);
    CHECK(ends(BEAD_INSERT, 4, BEAD_INSERTED, BEAD_NO_RESTRUCTURING));
    CHECK(ends(BEAD_INSERT, 5, BEAD_INSERTED, BEAD_SPLIT_SKIPPED));
    CHECK(begin(0, BEAD_FIND, 4) == BEAD_OK && begin(1, BEAD_DELETE, 5) == BEAD_OK);
    CHECK(begin(2, BEAD_FIND, 4) == BEAD_OK && begin(3, BEAD_FIND, 4) == BEAD_OK);
    CHECK(step_until(0, 6).outcome == BEAD_MOVED);
    CHECK(step_until(1, 0).outcome == BEAD_WAITING && file.parties[1].step == 13);
    CHECK(step_until(3, 0).outcome == BEAD_WAITING && file.parties[3].step == 4);
    CHECK(step_until(2, 0).outcome == BEAD_WAITING && file.parties[2].step == 4);
    CHECK(file.row[0] == 2 && file.row[1] == 4 && file.row[2] == 3 && file.row[3] == 0);
    CHECK(withdraw(3) == BEAD_OK);
    CHECK(file.row[0] == 2 && file.row[1] == 3 && file.row[2] == 0 && file.row[3] == 0);
    CHECK(step_until(0, 0).answer == BEAD_FOUND);
    CHECK(step(2).outcome == BEAD_WAITING);
    CHECK(step(1).outcome == BEAD_MOVED && file.row[0] == 3 && file.row[1] == 0);
    CHECK(step(2).outcome == BEAD_WAITING);
    CHECK(step_until(1, 0).answer == BEAD_DELETED);
    CHECK(step_until(2, 0).answer == BEAD_FOUND);
    CHECK(take_up() == BEAD_OK);
}

/* A withdraw ends another party's wait, and its own. */
static void test_wait_withdrawn(void)
{
    make(1, 2, 2, 2, 3);
    CHECK(begin(0, BEAD_INSERT, 4) == BEAD_OK);
    CHECK(begin(1, BEAD_DELETE, 4) == BEAD_OK);
    CHECK(begin(2, BEAD_INSERT, 6) == BEAD_OK);
    CHECK(step_until(0, 11).outcome == BEAD_MOVED);
    CHECK(step_until(1, 0).outcome == BEAD_WAITING);
    CHECK(step_until(2, 0).outcome == BEAD_WAITING);
    CHECK(withdraw(2) == BEAD_OK);
    CHECK(step(1).outcome == BEAD_WAITING);
    CHECK(withdraw(0) == BEAD_OK);
    CHECK(step_until(1, 0).answer == BEAD_ABSENT);
}

int main(void)
{
    test_format();
    test_begin();
    test_step();
    test_withdraw();
    test_take_up();
    test_taken_up();
    test_withdrawn();
    test_damage();
    test_row_damage();
    test_answers();
    test_settings();
    test_waiting();
    test_overtaking();
    test_wait_withdrawn();
    if (failures == 0)
        printf("face: %u checks of the C face hold\n", checks);
    return failures == 0 ? 0 : 1;
}
