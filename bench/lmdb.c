/* LMDB as a contender (bench/map.h): integer keys with their settings in a temporary file; an operation is a transaction of its own. Writes go to the mapped file, and
 * nobody waits for the disk (MDB_WRITEMAP, MDB_NOSYNC): the disk is not what is measured. */
#include <lmdb.h>
#include <stdio.h>
#include <stdlib.h>
#include <string.h>
#include <unistd.h>

#include "map.h"

static MDB_env *environment;
static MDB_dbi beads;
static char folder[4096];

const char *map_name(void)
{
    static char name[64];
    snprintf(name, sizeof name, "LMDB %d.%d.%d, on a file", MDB_VERSION_MAJOR, MDB_VERSION_MINOR, MDB_VERSION_PATCH);
    return name;
}

/* A find is entered in the table of readers, and locks nothing. */
const char *map_locks(void) { return "the file, to write"; }

static void expect(int code)
{
    if (code != MDB_SUCCESS) {
        fprintf(stderr, "LMDB: %s\n", mdb_strerror(code));
        exit(1);
    }
}

static MDB_txn *transaction(unsigned flags)
{
    MDB_txn *begun;
    expect(mdb_txn_begin(environment, NULL, flags, &begun));
    return begun;
}

static void leave(void)
{
    if (chdir(folder) == 0 && unlink("data.mdb") == 0 && unlink("lock.mdb") == 0)
        rmdir(folder);
}

static void make(void)
{
    const char *temporary = getenv("TMPDIR");
    snprintf(folder, sizeof folder, "%s/bench-lmdb-XXXXXX", temporary != NULL ? temporary : P_tmpdir);
    if (mkdtemp(folder) == NULL || atexit(leave) != 0) {
        perror("LMDB: no temporary folder");
        exit(1);
    }
    expect(mdb_env_create(&environment));
    expect(mdb_env_set_mapsize(environment, 1u << 26));
    expect(mdb_env_open(environment, folder, MDB_WRITEMAP | MDB_NOSYNC, 0600));
    MDB_txn *begun = transaction(0);
    expect(mdb_dbi_open(begun, NULL, MDB_INTEGERKEY, &beads));
    expect(mdb_txn_commit(begun));
}

void map_empty(void)
{
    if (environment == NULL)
        make();
    MDB_txn *begun = transaction(0);
    expect(mdb_drop(begun, beads, 0));
    expect(mdb_txn_commit(begun));
}

static struct answer find(MDB_val *key)
{
    MDB_val value;
    struct answer answer = {BEAD_ABSENT, 0};
    MDB_txn *begun = transaction(MDB_RDONLY);
    int code = mdb_get(begun, beads, key, &value);
    if (code != MDB_NOTFOUND) {
        expect(code);
        answer.number = BEAD_FOUND;
        memcpy(&answer.setting, value.mv_data, sizeof answer.setting);
    }
    mdb_txn_abort(begun);
    return answer;
}

struct answer map_perform(uint32_t operation, uint32_t number, uint32_t setting)
{
    MDB_val key = {sizeof number, &number}, value = {sizeof setting, &setting};
    if (operation == BEAD_FIND)
        return find(&key);
    MDB_txn *begun = transaction(0);
    int code = operation == BEAD_INSERT ? mdb_put(begun, beads, &key, &value, MDB_NOOVERWRITE) : mdb_del(begun, beads, &key, NULL);
    if (code == MDB_KEYEXIST || code == MDB_NOTFOUND) {
        mdb_txn_abort(begun);
        return (struct answer){code == MDB_KEYEXIST ? BEAD_PRESENT : BEAD_ABSENT, 0};
    }
    expect(code);
    expect(mdb_txn_commit(begun));
    return (struct answer){operation == BEAD_INSERT ? BEAD_INSERTED : BEAD_DELETED, 0};
}
