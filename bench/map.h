/* What a contender of the benchmark is to bench/work.c: a map of 32-bit keys to 32-bit settings behind these functions. Operations and answers are the numbers of
 * include/bead_index.h; each contender is linked into a program of its own. */
#ifndef BENCH_MAP_H
#define BENCH_MAP_H

#include "bead_index.h"

/* What an operation answers, and the setting of a key found, else 0. */
struct answer {
    uint32_t number, setting;
};

/* An operation with an insert's setting, and the answer that a plain map gives. */
struct operation {
    uint32_t operation, key, setting;
    struct answer answer;
};

static inline int same(struct answer a, struct answer b) { return a.number == b.number && a.setting == b.setting; }

/* The contender's name in the table, and what an operation locks there. */
const char *map_name(void);
const char *map_locks(void);

/* Makes the map, or empties it. */
void map_empty(void);

/* Performs an operation: its answer. */
struct answer map_perform(uint32_t operation, uint32_t key, uint32_t setting);

/* Performs operations by so many parties in turn. How many answered as they should: `many`, or the place of the first that did not.
 * Weak, since only a contender that has parties defines it. */
__attribute__((weak)) uint32_t map_in_turn(const struct operation *list, uint32_t many, uint32_t parties);

/* Takes the map up as a saved file: whether it passes. Weak, since only the index can be taken up. */
__attribute__((weak)) int map_take_up(void);

#endif
