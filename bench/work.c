/* The benchmark's work, the same for every contender (bench/map.h). A row is a list of operations, each with the answer that a plain map gives; a contender that
 * answers otherwise ends the program. What comes before a row's own operations brings the map to where they begin.
 *   PROGRAM name           prints the contender's name, and what it locks
 *   PROGRAM time SECONDS   prints a line a row: its name, and nanoseconds of processor time an operation; each row is repeated for so long
 *   PROGRAM count          performs each row once; under callgrind it dumps each by itself, with its name and how many operations it has
 *   PROGRAM growth         the same for the points of the picture: kind, keys, parties, and how many */
#include <stdio.h>
#include <stdlib.h>
#include <string.h>
#include <time.h>
#include <valgrind/callgrind.h>

#include "map.h"

/* With KEYS keys the file of bench/bead.c has all its chains, with some seventeen keys each; with WAVE keys, four fifths of them. A delete among
 * inserts is of the key that was inserted LAG inserts before, which is done by then, also with sixteen parties. */
enum { KEYS = 4369, FEW_KEYS = 10, WAVE = 1250, LAG = 20, MOST_KEYS = 16384, MOST_OPERATIONS = 10000 };

enum kind { LOAD, FIND, DELETE, MIXED, WAVES, CHANGES, TAKE_UP };

/* A row: its kind, how many keys are there before it, which of its operations are counted (those before them are performed), and how many parties perform them. */
struct row {
    const char *name;
    enum kind kind;
    uint32_t loaded, first, last, parties;
};

static const struct row rows[] = {
    {"load", LOAD, 0, 500, 1250, 1},         {"find", FIND, KEYS, 1000, 3000, 1},   {"insert", LOAD, KEYS / 2, 500, 2000, 1},
    {"delete", DELETE, KEYS, 500, 2000, 1}, {"mixed", MIXED, KEYS, 1000, 4000, 1}, {"waves", WAVES, WAVE, 0, 2 * WAVE, 1},
    {"sixteen in turn", MIXED, KEYS, 1000, 4000, 16}, {"take-up", TAKE_UP, KEYS, 0, 20, 1},
};
#define END(list) ((list) + sizeof(list) / sizeof *(list))

/* The plain map: the setting of the key at each place, 0 where it is not there. */
static uint32_t settings[MOST_KEYS];
static struct operation list[MOST_OPERATIONS];

/* The i-th key: all differ, and they fall on the chains as if by chance (the last step of MurmurHash3). */
static uint32_t key(uint32_t i)
{
    i = (i ^ i >> 16) * 0x85ebca6bu;
    i = (i ^ i >> 13) * 0xc2b2ae35u;
    return i ^ i >> 16;
}

/* The i-th operation of a row, and the place of its key. */
static uint32_t choose(const struct row *row, uint32_t i, uint32_t *place)
{
    uint32_t tenth = i % 10;
    switch (row->kind) {
    case LOAD: /* new keys */
        *place = row->loaded + i;
        return BEAD_INSERT;
    case FIND: /* keys that are there */
        *place = i * 7 % row->loaded;
        return BEAD_FIND;
    case DELETE: /* keys that are there */
        *place = i;
        return BEAD_DELETE;
    case MIXED: /* by turns eight finds, an insert and a delete */
        *place = tenth < 8 ? i * 7 % row->loaded : row->loaded + i / 10 + (tenth == 8 ? LAG : 0);
        return tenth < 8 ? BEAD_FIND : tenth == 8 ? BEAD_INSERT : BEAD_DELETE;
    case WAVES: /* all keys deleted, then inserted, and so on */
        *place = i % row->loaded;
        return i / row->loaded % 2 == 0 ? BEAD_DELETE : BEAD_INSERT;
    default: /* CHANGES: by turns an insert and a delete */
        *place = row->loaded + i / 2 + (i % 2 == 0 ? LAG : 0);
        return i % 2 == 0 ? BEAD_INSERT : BEAD_DELETE;
    }
}

/* What a plain map answers, and what it becomes. */
static struct answer expected(uint32_t operation, uint32_t place, uint32_t setting)
{
    uint32_t was = settings[place];
    if (operation == BEAD_FIND)
        return (struct answer){was ? BEAD_FOUND : BEAD_ABSENT, was};
    if (operation == BEAD_DELETE) {
        settings[place] = 0;
        return (struct answer){was ? BEAD_DELETED : BEAD_ABSENT, 0};
    }
    settings[place] = was ? was : setting;
    return (struct answer){was ? BEAD_PRESENT : BEAD_INSERTED, 0};
}

/* Lists a row's operations from the first to before the last: how many. The settings that they bring all differ, and none is 0. */
static uint32_t plan(const struct row *row, uint32_t first, uint32_t last)
{
    if (row->kind == TAKE_UP) /* the same each time */
        return last - first;
    for (uint32_t i = first, place; i < last; i++) {
        uint32_t operation = choose(row, i, &place);
        list[i - first] = (struct operation){operation, key(place), i + 1, expected(operation, place, i + 1)};
    }
    return last - first;
}

static uint32_t perform_alone(uint32_t many)
{
    uint32_t i = 0;
    while (i < many && same(map_perform(list[i].operation, list[i].key, list[i].setting), list[i].answer))
        i++;
    return i;
}

static void take_up(const struct row *row, uint32_t many)
{
    for (uint32_t i = 0; i < many; i++)
        if (!map_take_up()) {
            fprintf(stderr, "%s: row %s: the file is not taken up\n", map_name(), row->name);
            exit(1);
        }
}

/* Performs what is listed. */
static void perform(const struct row *row, uint32_t many)
{
    if (row->kind == TAKE_UP) {
        take_up(row, many);
        return;
    }
    uint32_t agreed = row->parties == 1 ? perform_alone(many) : map_in_turn(list, many, row->parties);
    if (agreed == many)
        return;
    const struct operation *wrong = &list[agreed];
    fprintf(stderr, "%s: row %s: operation %u on key %u does not answer %u, setting %u\n", map_name(), row->name, (unsigned)wrong->operation, (unsigned)wrong->key,
            (unsigned)wrong->answer.number, (unsigned)wrong->answer.setting);
    exit(1);
}

/* Brings the map to where a row's counted operations begin, and lists these: how many. */
static uint32_t prepare(const struct row *row)
{
    const struct row load = {"load", LOAD, 0, 0, row->loaded, 1};
    map_empty();
    memset(settings, 0, sizeof settings);
    perform(&load, plan(&load, 0, row->loaded));
    perform(row, plan(row, 0, row->first));
    return plan(row, row->first, row->last);
}

/* Whether the contender has as many parties as a row asks for, and can be taken up where it asks for that. */
static int able(const struct row *row)
{
    return (row->parties == 1 || map_in_turn != NULL) && (row->kind != TAKE_UP || map_take_up != NULL);
}

/* The processor time of this program, in nanoseconds. */
static double now(void)
{
    struct timespec time;
    clock_gettime(CLOCK_PROCESS_CPUTIME_ID, &time);
    return 1e9 * (double)time.tv_sec + (double)time.tv_nsec;
}

static void time_row(const struct row *row, double seconds)
{
    double begun = now(), spent = 0, performed = 0;
    do {
        uint32_t many = prepare(row);
        double from = now();
        perform(row, many);
        spent += now() - from;
        performed += many;
    } while (now() - begun < 1e9 * seconds);
    printf("%s %.2f\n", row->name, spent / performed);
}

/* Performs a row's operations once, dumped by callgrind as WORDS with how many they are. */
static void count_row(const struct row *row, const char *words)
{
    char label[64];
    uint32_t many = prepare(row);
    snprintf(label, sizeof label, "%s %u", words, (unsigned)many);
    CALLGRIND_START_INSTRUMENTATION;
    perform(row, many);
    CALLGRIND_STOP_INSTRUMENTATION;
    CALLGRIND_DUMP_STATS_AT(label);
}

static void count_point(const char *name, enum kind kind, uint32_t keys, uint32_t parties)
{
    char label[48];
    const struct row row = {name, kind, keys, 200, 800, parties};
    snprintf(label, sizeof label, "%s %u %u", name, (unsigned)keys, (unsigned)parties);
    count_row(&row, label);
}

static void growth(void)
{
    for (uint32_t keys = 250; keys <= 4500; keys += 250) {
        count_point("find", FIND, keys, 1);
        count_point("change", CHANGES, keys, 1);
    }
    for (uint32_t parties = 1; parties <= 16; parties++) {
        count_point("crowd", CHANGES, FEW_KEYS, parties);
        count_point("mixed", MIXED, KEYS, parties);
    }
}

int main(int many, char **words)
{
    const char *task = many > 1 ? words[1] : "";
    double seconds = many == 3 ? atof(words[2]) : 0;
    if (many == 2 && strcmp(task, "name") == 0)
        printf("%s\n%s\n", map_name(), map_locks());
    else if (many == 2 && strcmp(task, "growth") == 0 && map_in_turn != NULL)
        growth();
    else if (many == 2 && strcmp(task, "count") == 0) {
        for (const struct row *row = rows; row < END(rows); row++)
            if (able(row))
                count_row(row, row->name);
    } else if (many == 3 && strcmp(task, "time") == 0 && seconds > 0) {
        for (const struct row *row = rows; row < END(rows); row++)
            if (able(row))
                time_row(row, seconds);
    } else {
        fputs("usage: PROGRAM name | time SECONDS | count | growth (of a contender that has parties)\n", stderr);
        return 2;
    }
    return 0;
}
