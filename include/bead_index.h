/* The bead index for C and C++: the five calls, the memory that they are lent, and the numbers that they answer.
 *
 * A file of records, each a 32-bit key and a 32-bit setting, shared by up to sixteen parties under Ellis's locks.
 * bead_format makes an empty file, bead_begin starts a find, an insert or a delete for a party, and bead_step performs
 * one step of it: seven steps or more an operation, of which the last answers BEAD_DONE. The caller picks whose step is
 * next. bead_withdraw takes an operation back that is no longer wanted, where it has decided nothing yet. bead_take_up
 * tests words that were saved, so that a program that starts again goes on with its file. An insert brings a key with
 * its setting, and leaves a key that is in with the setting that it has; a find answers the setting of its key.
 *
 * All memory is the caller's: a root record, a row of party's records, a row of lock words, a row of page words and a
 * row of who waits, lent anew to every call. The library keeps nothing, allocates nothing and calls nobody. What each
 * call leaves in every lent word is proved, for all words that the memory may have held: docs/SPECIFICATION.md has the
 * rules, examples/first.c is a first program. What is said below of a file that only these calls have altered holds
 * from the bead_format that made it, or from a bead_take_up that answered BEAD_OK.
 *
 * What the caller sees to, since no call can: each pointer leads to as many records or words as its length says,
 * aligned as its type asks, and is not null; the five parts do not overlap; and nobody else reads or writes them
 * during a call, so parties that run as threads call under one mutex.
 *
 * On chains of at most four pages no call was measured to take more than 1,888 bytes of stack (step 17); step 3, which
 * every operation performs, takes 744. On the longest chain that can be lent no call takes more than 314,416 bytes
 * (step 17). docs/PERFORMANCE.md has every call.
 *
 * Link with libbead.a (x86-64 Linux), which tests/staticlib builds. */
#ifndef BEAD_INDEX_H
#define BEAD_INDEX_H

#include <stddef.h>
#include <stdint.h>

#ifdef __cplusplus
extern "C" {
#endif

/* ---- Sizes
 *
 * A file has five sizes, named as in the specification:
 *   N  original chains       1 to P
 *   b  records a page        1 to BEAD_MOST_RECORDS
 *   P  chains at most        1 to BEAD_MOST_PRIMARIES (a chain has one primary page)
 *   V  overflow pages        0 to BEAD_MOST_OVERFLOW
 *   Q  parties               1 to BEAD_MOST_PARTIES */
#define BEAD_MOST_RECORDS 6u
#define BEAD_MOST_PRIMARIES 256u
#define BEAD_MOST_OVERFLOW 752u
#define BEAD_MOST_PARTIES 16u

/* The words of one page. */
#define BEAD_PAGE_WORDS 16u

/* The lengths of the rows to lend, for sizes within those limits: party's records, lock words, page words, words of who
 * waits. Each is a constant where the sizes are, so fit for an array's length. */
#define BEAD_PARTY_ROW(Q) (0u + (Q))
#define BEAD_LOCK_ROW(P) (1u + (P))
#define BEAD_PAGE_ROW(P, V, Q) (BEAD_PAGE_WORDS * (0u + (P) + (V) + (Q)))
#define BEAD_ROW(Q) (0u + (Q))

/* The calls of bead_step that an operation takes at most, whatever the other parties do: those that are answered
 * BEAD_MOVED or BEAD_DONE. The begin is not counted, nor are calls that wait or are refused. It holds of a file that
 * only these calls have altered. By the sizes, with R the least number for which N * 2^R is P or more, they are at most
 * 7 + 3 * R + V for a find, 21 + 3 * R for an insert and 19 + 3 * R for a delete; R is 8 at most, and 0 where N = P.
 * 31 + V is reached for V = 1: with none nothing splits, and a chain that these calls have written has at most
 * (V + 1) / 2 overflow pages. In a file taken up a chain may have all V: where N = P a find takes 7 + V calls there,
 * for every V. An insert reaches 45, a delete 41. */
#define BEAD_MOST_FIND(V) (31u + (V))
#define BEAD_MOST_INSERT 45u
#define BEAD_MOST_DELETE 43u

/* ---- The lent memory
 *
 * A caller need not look at it. The specification has the layout of lock words and pages. The row of who waits has the
 * number plus one of each party that does, in the order in which they came to wait, and 0 behind the last. */

/* The root record. */
struct bead_root {
    uint32_t originals; /* N */
    uint32_t capacity;  /* b */
    uint32_t primaries; /* P */
    uint32_t overflow;  /* V */
    uint32_t parties;   /* Q */
    uint32_t level;     /* how often the file has doubled */
    uint32_t next;      /* the chain that splits next */
    uint32_t head;      /* the number of the first free page plus one, 0 for none */
    uint32_t free;      /* how many pages are free */
};

/* A party's record. */
struct bead_party {
    uint32_t operation; /* enum bead_operation */
    uint32_t key;       /* the operation's key */
    uint32_t step;      /* the number of the next step, 1 to 30 */
    uint32_t lev;       /* the level that the party goes by */
    uint32_t chain;     /* the chain that it holds or wants */
    uint32_t other;     /* the chain to be left at step 8, a split's new chain or a merge's partner */
    uint32_t old;       /* the old overflow link: the first page to be given back plus one, 0 for none */
    uint32_t owed;      /* the restructuring owed: 0 none, 1 split, 2 merge, 3 split made */
    uint32_t answer;    /* the answer so far: enum bead_answer, never BEAD_FOUND */
    uint32_t setting;   /* an insert's setting, else 0 */
};

/* ---- Numbers */

/* What a party can begin. */
enum bead_operation {
    BEAD_IDLE = 0, /* not to be begun: the word of a party with no operation under way */
    BEAD_FIND = 1,
    BEAD_INSERT = 2,
    BEAD_DELETE = 3
};

/* Why a call was refused: the numbers of the specification's table and one more, in the order in which the causes
 * are tested. The first cause met gives the number. A refused call alters nothing. */
enum bead_refusal {
    BEAD_OK = 0,              /* not refused */
    BEAD_NO_OPERATION = 255,  /* bead_begin of none of the three operations; not in the table */
    BEAD_SIZE_REFUSED = 2,    /* a size outside its limits: of those given to bead_format, else of the root record's */
    BEAD_LENGTH_REFUSED = 1,  /* a length other than Q records, P + 1 lock words, 16 * (P + V + Q) page words or Q
                               * words of who waits */
    BEAD_UNSAVED_REFUSED = 8, /* bead_take_up of words that are no file at rest */
    BEAD_PARTY_REFUSED = 3,   /* a party's number Q or above */
    BEAD_BUSY_REFUSED = 4,    /* bead_begin for a party that is not idle */
    BEAD_IDLE_REFUSED = 5,    /* bead_step or bead_withdraw for an idle party */
    BEAD_DECIDED_REFUSED = 7, /* bead_withdraw of an operation that has taken its decisive step */
    BEAD_DAMAGE = 6           /* a damaged number: never in a file that only these calls have altered */
};

/* What a step came to. */
enum bead_outcome {
    BEAD_WAITING = 0, /* the lock that it needs is held, or a party that came to wait earlier wants it: try again later.
                       * The first such reply to a step alters the row of who waits alone, the others no word */
    BEAD_MOVED = 1,   /* a step was performed, and there are more */
    BEAD_DONE = 2     /* the operation is over, and the party idle */
};

/* What an operation answers once it is done. */
enum bead_answer {
    BEAD_NO_ANSWER = 0, /* it is not done */
    BEAD_INSERTED = 1,  /* insert: the key was out and is in, with the setting given */
    BEAD_PRESENT = 2,   /* insert: the key was in, and keeps its setting */
    BEAD_DELETED = 3,   /* delete: the key was in and is out */
    BEAD_ABSENT = 4,    /* find, delete: the key was out */
    BEAD_NO_PAGE = 5,   /* insert, delete: too few overflow pages are free; the key is as it was */
    BEAD_FOUND = 6      /* find: the key was in, with the setting of the reply */
};

/* What a done operation made of the file's chains besides. */
enum bead_restructuring {
    BEAD_NO_RESTRUCTURING = 0,
    BEAD_SPLIT = 1,         /* an insert split a chain */
    BEAD_SPLIT_SKIPPED = 2, /* an insert owed a split; there were P chains, or too few free pages */
    BEAD_MERGED = 3,        /* a delete merged two chains */
    BEAD_MERGE_SKIPPED = 4  /* a delete owed a merge; there were N chains, or more records than fit a page */
};

/* The reply to a step. What does not apply is 0: all but the refusal where there is one, answer and restructuring
 * where the operation is not done, the setting where the answer is not BEAD_FOUND. */
struct bead_reply {
    uint32_t refusal;       /* enum bead_refusal */
    uint32_t outcome;       /* enum bead_outcome */
    uint32_t answer;        /* enum bead_answer */
    uint32_t restructuring; /* enum bead_restructuring */
    uint32_t setting;       /* the setting of the key found: any number, 0 too */
};

#if defined(__cplusplus) && __cplusplus >= 201103L
#define BEAD_ASSERT_BYTES(type, bytes) static_assert(sizeof(type) == bytes, #type " has padding")
#elif !defined(__cplusplus) && defined(__STDC_VERSION__) && __STDC_VERSION__ >= 201112L
#define BEAD_ASSERT_BYTES(type, bytes) _Static_assert(sizeof(type) == bytes, #type " has padding")
#endif
#ifdef BEAD_ASSERT_BYTES
BEAD_ASSERT_BYTES(struct bead_root, 36);
BEAD_ASSERT_BYTES(struct bead_party, 40);
BEAD_ASSERT_BYTES(struct bead_reply, 20);
#undef BEAD_ASSERT_BYTES
#endif

/* ---- The calls
 *
 * Each is lent the same five parts by nine arguments: the root record; the row of party's records and how many they
 * are; the row of lock words and how many; the row of page words and how many; the row of who waits and how many. */

/* Makes an empty file of the sizes N b P V Q, given last and in this order. What the memory held before does not
 * matter.
 * Answers BEAD_OK, or refuses, tested in this order:
 *   BEAD_SIZE_REFUSED    a size given is outside its limits
 *   BEAD_LENGTH_REFUSED  a length is not the one that the sizes given ask for */
uint32_t bead_format(struct bead_root *root, struct bead_party *party_row, size_t parties, uint32_t *locks,
                     size_t lock_words, uint32_t *pages, size_t page_words, uint32_t *row, size_t row_words,
                     uint32_t originals, uint32_t capacity, uint32_t primaries, uint32_t overflow,
                     uint32_t party_count);

/* Begins an operation (enum bead_operation) on a key for a party; parties are numbered from 0. Key and setting may be
 * any numbers; the setting is an insert's, and that of a find or a delete is ignored. It writes that party's record
 * alone.
 * Answers BEAD_OK, or refuses, tested in this order:
 *   BEAD_NO_OPERATION    the operation is none of BEAD_FIND, BEAD_INSERT, BEAD_DELETE
 *   BEAD_SIZE_REFUSED    a size in the root record is outside its limits: the memory was never formatted
 *   BEAD_LENGTH_REFUSED  a length is not the one that the root record asks for
 *   BEAD_PARTY_REFUSED   there is no such party
 *   BEAD_BUSY_REFUSED    the party's last operation is neither done nor withdrawn */
uint32_t bead_begin(struct bead_root *root, struct bead_party *party_row, size_t parties, uint32_t *locks,
                    size_t lock_words, uint32_t *pages, size_t page_words, uint32_t *row, size_t row_words,
                    uint32_t party, uint32_t operation, uint32_t key, uint32_t setting);

/* Performs one step of a party's operation. A lock is granted where the locks held permit it and no party that came to
 * wait earlier wants a lock on the same root or chain that conflicts with it; else the step waits. A party that waits
 * is in the row of who waits until a step of it is performed or its operation is withdrawn. In a file that only these
 * calls have altered, no party that comes later is granted a conflicting lock ahead of one that waits, and while
 * it waits each other party is granted one at most once; of all parties with an operation under way at least one would
 * not wait; and a find is done after at most BEAD_MOST_FIND(V) calls that do not wait, an insert after
 * BEAD_MOST_INSERT, a delete after BEAD_MOST_DELETE.
 * The reply's refusal is BEAD_OK or, tested in this order:
 *   BEAD_SIZE_REFUSED    a size in the root record is outside its limits: the memory was never formatted
 *   BEAD_LENGTH_REFUSED  a length is not the one that the root record asks for
 *   BEAD_PARTY_REFUSED   there is no such party
 *   BEAD_IDLE_REFUSED    the party has no operation under way
 *   BEAD_DAMAGE          a number that the step needs, or the row of who waits, is damaged */
struct bead_reply bead_step(struct bead_root *root, struct bead_party *party_row, size_t parties, uint32_t *locks,
                            size_t lock_words, uint32_t *pages, size_t page_words, uint32_t *row, size_t row_words,
                            uint32_t party);

/* Withdraws a party's operation: takes back its bead_begin. The locks that it holds are given up, the pages that it has
 * built are free again, it waits no more, and the party is idle, with no answer. No key is altered, and no setting. In
 * a file that only these calls have altered, and with no other party's call since the bead_begin, every lent word is
 * what it was before that. An operation that has taken its decisive step cannot be withdrawn, and is stepped to its
 * end: a find whose step number is 9, an insert or a delete whose step number is 12 or above.
 * Answers BEAD_OK, or refuses, tested in this order:
 *   BEAD_SIZE_REFUSED     a size in the root record is outside its limits: the memory was never formatted
 *   BEAD_LENGTH_REFUSED   a length is not the one that the root record asks for
 *   BEAD_PARTY_REFUSED    there is no such party
 *   BEAD_IDLE_REFUSED     the party has no operation under way
 *   BEAD_DECIDED_REFUSED  the operation has taken its decisive step
 *   BEAD_DAMAGE           a number that the withdraw needs, or the row of who waits, is damaged */
uint32_t bead_withdraw(struct bead_root *root, struct bead_party *party_row, size_t parties, uint32_t *locks,
                       size_t lock_words, uint32_t *pages, size_t page_words, uint32_t *row, size_t row_words,
                       uint32_t party);

/* Tests words that were saved: whether they are a file at rest, as these calls leave one when no operation is under
 * way. It alters nothing. Words that pass may stand where formatted memory stood, and all that is proved of a formatted
 * file holds from there, its keys and settings being those at the start. A file at rest that only these calls have
 * altered always passes.
 * Answers BEAD_OK, or refuses, tested in this order:
 *   BEAD_SIZE_REFUSED     a size in the root record is outside its limits (always, where the byte order is another's)
 *   BEAD_LENGTH_REFUSED   a length is not the one that the root record asks for
 *   BEAD_UNSAVED_REFUSED  an operation is under way, or a word is not as these calls leave it
 * What BEAD_UNSAVED_REFUSED asks of a program that starts again: words that were copied between two calls are sound,
 * with operations under way. So make a copy of them and settle that: withdraw every party's operation, and step those
 * that are decided to their end, in turn; then take the copy up. Where that is refused, or a call was cut in its
 * middle, go back to the file that was saved last. Save to a new file and rename it, so that there is always a whole
 * one (examples/restart.c). */
uint32_t bead_take_up(const struct bead_root *root, const struct bead_party *party_row, size_t parties,
                      const uint32_t *locks, size_t lock_words, const uint32_t *pages, size_t page_words,
                      const uint32_t *row, size_t row_words);

#ifdef __cplusplus
}
#endif

#endif
