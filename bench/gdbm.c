/* GDBM as a contender (bench/map.h): a temporary file that is mapped into memory; nobody waits for the disk, and
 * nothing is locked (GDBM_NOLOCK: by default the one who writes locks the whole file while it is open). */
#include <gdbm.h>
#include <stdio.h>
#include <stdlib.h>
#include <string.h>
#include <unistd.h>

#include "map.h"

static GDBM_FILE beads;
static char path[4096];

const char *map_name(void)
{
    static char name[64];
    snprintf(name, sizeof name, "GDBM %d.%d, on a file", GDBM_VERSION_MAJOR, GDBM_VERSION_MINOR);
    return name;
}

const char *map_locks(void) { return "nothing"; }

static void expect(int good)
{
    if (!good) {
        fprintf(stderr, "GDBM: %s\n", gdbm_strerror(gdbm_errno));
        exit(1);
    }
}

static void leave(void) { unlink(path); }

static void make(void)
{
    const char *temporary = getenv("TMPDIR");
    snprintf(path, sizeof path, "%s/bench-gdbm-XXXXXX", temporary != NULL ? temporary : P_tmpdir);
    int file = mkstemp(path);
    if (file < 0 || close(file) != 0 || atexit(leave) != 0) {
        perror("GDBM: no temporary file");
        exit(1);
    }
}

void map_empty(void)
{
    if (beads == NULL)
        make();
    else
        expect(gdbm_close(beads) == 0);
    beads = gdbm_open(path, 0, GDBM_NEWDB | GDBM_NOLOCK, 0600, NULL);
    expect(beads != NULL);
}

static struct answer find(datum key)
{
    struct answer answer = {BEAD_ABSENT, 0};
    datum value = gdbm_fetch(beads, key);
    if (value.dptr == NULL) {
        expect(gdbm_errno == GDBM_ITEM_NOT_FOUND);
        return answer;
    }
    answer.number = BEAD_FOUND;
    memcpy(&answer.setting, value.dptr, sizeof answer.setting);
    free(value.dptr);
    return answer;
}

struct answer map_perform(uint32_t operation, uint32_t number, uint32_t setting)
{
    datum key = {(char *)&number, sizeof number}, value = {(char *)&setting, sizeof setting};
    if (operation == BEAD_FIND)
        return find(key);
    if (operation == BEAD_INSERT) {
        int code = gdbm_store(beads, key, value, GDBM_INSERT);
        expect(code >= 0);
        return (struct answer){code == 0 ? BEAD_INSERTED : BEAD_PRESENT, 0};
    }
    int gone = gdbm_delete(beads, key) == 0;
    expect(gone || gdbm_errno == GDBM_ITEM_NOT_FOUND);
    return (struct answer){gone ? BEAD_DELETED : BEAD_ABSENT, 0};
}
