/* tdb as a contender (bench/map.h): a database in memory (TDB_INTERNAL), which locks nothing. */
#include <fcntl.h>
#include <stdio.h>
#include <stdlib.h>
#include <string.h>
#include <sys/types.h>
#include <tdb.h>

#include "map.h"

/* Chains of its hash table, which does not grow: twice as many as there are keys. */
enum { CHAINS = 10007 };

static struct tdb_context *beads;

const char *map_name(void) { return "tdb, in memory"; }
const char *map_locks(void) { return "nothing"; }

static void expect(int good)
{
    if (!good) {
        fprintf(stderr, "tdb: %s\n", beads ? tdb_errorstr(beads) : "no memory");
        exit(1);
    }
}

void map_empty(void)
{
    if (beads == NULL)
        beads = tdb_open("beads", CHAINS, TDB_INTERNAL, O_RDWR, 0);
    expect(beads != NULL && tdb_wipe_all(beads) == 0);
}

static int read_setting(TDB_DATA key, TDB_DATA value, void *setting)
{
    (void)key;
    memcpy(setting, value.dptr, sizeof(uint32_t));
    return 0;
}

static struct answer find(TDB_DATA key)
{
    struct answer answer = {BEAD_FOUND, 0};
    if (tdb_parse_record(beads, key, read_setting, &answer.setting) != 0) {
        expect(tdb_error(beads) == TDB_ERR_NOEXIST);
        answer.number = BEAD_ABSENT;
    }
    return answer;
}

struct answer map_perform(uint32_t operation, uint32_t number, uint32_t setting)
{
    TDB_DATA key = {(unsigned char *)&number, sizeof number}, value = {(unsigned char *)&setting, sizeof setting};
    if (operation == BEAD_FIND)
        return find(key);
    int inserts = operation == BEAD_INSERT;
    if ((inserts ? tdb_store(beads, key, value, TDB_INSERT) : tdb_delete(beads, key)) == 0)
        return (struct answer){inserts ? BEAD_INSERTED : BEAD_DELETED, 0};
    expect(tdb_error(beads) == (inserts ? TDB_ERR_EXISTS : TDB_ERR_NOEXIST));
    return (struct answer){inserts ? BEAD_PRESENT : BEAD_ABSENT, 0};
}
