/* The index as a contender (bench/map.h): the library, or whatever else has the calls of include/bead_index.h. NAME is its name. The file is `1 6 256 752 16`. */
#include <stdlib.h>

#include "map.h"

enum { N = 1, B = 6, P = 256, V = 752, Q = 16 };

static struct bead_root root;
static struct bead_party parties[BEAD_PARTY_ROW(Q)];
static uint32_t locks[BEAD_LOCK_ROW(P)], pages[BEAD_PAGE_ROW(P, V, Q)], row[BEAD_ROW(Q)];
#define LENT \
    &root, parties, BEAD_PARTY_ROW(Q), locks, BEAD_LOCK_ROW(P), pages, BEAD_PAGE_ROW(P, V, Q), row, BEAD_ROW(Q)

const char *map_name(void) { return NAME; }
const char *map_locks(void) { return "root and chains"; }

void map_empty(void)
{
    if (bead_format(LENT, N, B, P, V, Q) != BEAD_OK)
        abort();
}

static void begin(uint32_t party, uint32_t operation, uint32_t key, uint32_t setting)
{
    if (bead_begin(LENT, party, operation, key, setting) != BEAD_OK)
        abort();
}

/* The answer, once the operation is done. */
static struct answer step(uint32_t party)
{
    struct bead_reply reply = bead_step(LENT, party);
    if (reply.refusal != BEAD_OK)
        abort();
    return (struct answer){reply.answer, reply.setting};
}

struct answer map_perform(uint32_t operation, uint32_t key, uint32_t setting)
{
    struct answer answer;
    begin(0, operation, key, setting);
    while ((answer = step(0)).number == BEAD_NO_ANSWER) {
    }
    return answer;
}

int map_take_up(void) { return bead_take_up(LENT) == BEAD_OK; }

/* One call a party, round and round, until all operations are done. */
uint32_t map_in_turn(const struct operation *list, uint32_t many, uint32_t turns)
{
    uint32_t performs[Q];
    for (uint32_t next = 0, busy = 0; next < many || busy > 0;)
        for (uint32_t party = 0; party < turns; party++) {
            struct answer answer;
            if (parties[party].operation == BEAD_IDLE) {
                if (next < many) {
                    begin(party, list[next].operation, list[next].key, list[next].setting);
                    performs[party] = next++;
                    busy++;
                }
            } else if ((answer = step(party)).number != BEAD_NO_ANSWER) {
                if (!same(answer, list[performs[party]].answer))
                    return performs[party];
                busy--;
            }
        }
    return many;
}
