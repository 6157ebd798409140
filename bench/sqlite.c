/* SQLite as a contender (bench/map.h): a table in memory with the key as its primary key and a setting beside it, as it is set up by default; an operation is a
 * prepared statement and a transaction of its own. */
#include <sqlite3.h>
#include <stdio.h>
#include <stdlib.h>

#include "map.h"

static sqlite3 *base;
/* By operation. */
static sqlite3_stmt *statements[BEAD_DELETE + 1];

const char *map_name(void)
{
    static char name[64];
    snprintf(name, sizeof name, "SQLite %s, in memory", sqlite3_libversion());
    return name;
}

/* A mutex, where it is built for threads. There is no file to lock. */
const char *map_locks(void) { return sqlite3_threadsafe() ? "the connection" : "nothing"; }

static void expect(int good)
{
    if (!good) {
        fprintf(stderr, "SQLite: %s\n", base ? sqlite3_errmsg(base) : "no memory");
        exit(1);
    }
}

static void prepare(uint32_t operation, const char *words)
{
    expect(sqlite3_prepare_v2(base, words, -1, &statements[operation], NULL) == SQLITE_OK);
}

static void make(void)
{
    expect(sqlite3_open(":memory:", &base) == SQLITE_OK);
    expect(sqlite3_exec(base, "create table beads (key integer primary key, setting integer)", NULL, NULL, NULL) == SQLITE_OK);
    prepare(BEAD_FIND, "select setting from beads where key = ?");
    prepare(BEAD_INSERT, "insert or ignore into beads values (?, ?)");
    prepare(BEAD_DELETE, "delete from beads where key = ?");
}

void map_empty(void)
{
    if (base == NULL)
        make();
    else
        expect(sqlite3_exec(base, "delete from beads", NULL, NULL, NULL) == SQLITE_OK);
}

struct answer map_perform(uint32_t operation, uint32_t key, uint32_t setting)
{
    sqlite3_stmt *statement = statements[operation];
    expect(sqlite3_bind_int64(statement, 1, key) == SQLITE_OK);
    expect(operation != BEAD_INSERT || sqlite3_bind_int64(statement, 2, setting) == SQLITE_OK);
    int found = sqlite3_step(statement);
    expect(found == SQLITE_ROW || found == SQLITE_DONE);
    struct answer answer = {BEAD_ABSENT, 0};
    if (found == SQLITE_ROW)
        answer = (struct answer){BEAD_FOUND, (uint32_t)sqlite3_column_int64(statement, 0)};
    expect(sqlite3_reset(statement) == SQLITE_OK);
    if (operation == BEAD_INSERT)
        answer.number = sqlite3_changes(base) == 1 ? BEAD_INSERTED : BEAD_PRESENT;
    if (operation == BEAD_DELETE && sqlite3_changes(base) == 1)
        answer.number = BEAD_DELETED;
    return answer;
}
