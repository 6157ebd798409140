/* Berkeley DB as a contender (bench/map.h): its hash file, a linear hash file as the index is, in a cache that holds
 * all of it; no file on the disk, no log, no transaction. Where LOCKED is 1 its environment has the lock manager, and
 * every operation locks the pages that it reads and writes; where it is 0, nothing is locked. */
#include <db.h>
#include <stdio.h>
#include <stdlib.h>

#include "map.h"

enum { CACHE_BYTES = 1 << 24 };

static DB *beads;

const char *map_name(void)
{
    static char name[80];
    snprintf(name, sizeof name, "Berkeley DB %d.%d.%d, with%s its locks", DB_VERSION_MAJOR, DB_VERSION_MINOR,
             DB_VERSION_PATCH, LOCKED ? "" : "out");
    return name;
}

const char *map_locks(void) { return LOCKED ? "pages" : "nothing"; }

static void expect(int code)
{
    if (code != 0) {
        fprintf(stderr, "Berkeley DB: %s\n", db_strerror(code));
        exit(1);
    }
}

static void make(void)
{
    DB_ENV *around;
    expect(db_env_create(&around, 0));
    expect(around->set_cachesize(around, 0, CACHE_BYTES, 1));
    expect(around->open(around, NULL, DB_CREATE | DB_PRIVATE | DB_INIT_MPOOL | (LOCKED ? DB_INIT_LOCK : 0), 0));
    expect(db_create(&beads, around, 0));
    expect(beads->open(beads, NULL, NULL, NULL, DB_HASH, DB_CREATE, 0));
}

void map_empty(void)
{
    uint32_t records;
    if (beads == NULL)
        make();
    else
        expect(beads->truncate(beads, NULL, &records, 0));
}

static struct answer find(DBT *key)
{
    struct answer answer = {BEAD_ABSENT, 0};
    DBT value = {.data = &answer.setting, .ulen = sizeof answer.setting, .flags = DB_DBT_USERMEM};
    int code = beads->get(beads, NULL, key, &value, 0);
    if (code != DB_NOTFOUND) {
        expect(code);
        answer.number = BEAD_FOUND;
    }
    return answer;
}

struct answer map_perform(uint32_t operation, uint32_t number, uint32_t setting)
{
    DBT key = {.data = &number, .size = sizeof number}, value = {.data = &setting, .size = sizeof setting};
    if (operation == BEAD_FIND)
        return find(&key);
    int inserts = operation == BEAD_INSERT;
    int code = inserts ? beads->put(beads, NULL, &key, &value, DB_NOOVERWRITE) : beads->del(beads, NULL, &key, 0);
    if (code == DB_KEYEXIST || code == DB_NOTFOUND)
        return (struct answer){code == DB_KEYEXIST ? BEAD_PRESENT : BEAD_ABSENT, 0};
    expect(code);
    return (struct answer){inserts ? BEAD_INSERTED : BEAD_DELETED, 0};
}
