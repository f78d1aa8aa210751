/* The queue of Settle by index, spoiled: the steps are run here one by one, by the proved Step. */
#include "index.h"

#include <string.h>

/* Room for all that may wait where steps join twice; what finds none does not join. */
enum { MOST_WAITING = 1 << 16 };

/* The steps that wait, in a ring, and how often each of them does. */
struct waiting {
    uint8_t steps[MOST_WAITING];
    size_t first, count;
    size_t times[MOST_STEPS];
};

static _Thread_local struct waiting waiting;
static _Thread_local uint64_t before[COBLESKEG_LARGEST_TABLE];

static void wait_behind(size_t j)
{
    if (waiting.count == MOST_WAITING)
        return;
    waiting.steps[(waiting.first + waiting.count++) % MOST_WAITING] = (uint8_t)j;
    waiting.times[j]++;
}

static void wait_first(size_t j)
{
    waiting.first = (waiting.first + MOST_WAITING - 1) % MOST_WAITING;
    waiting.steps[waiting.first] = (uint8_t)j;
    waiting.count++;
    waiting.times[j]++;
}

static size_t next(void)
{
    size_t j = waiting.steps[waiting.first];
    waiting.first = (waiting.first + 1) % MOST_WAITING;
    waiting.count--;
    waiting.times[j]--;
    return j;
}

static void all_wait(struct counts counts)
{
    size_t steps = counts.constraints + counts.strings;
    memset(&waiting, 0, sizeof waiting);
    for (size_t i = 0; i < steps; i++)
        wait_behind(planted == queue_trimmings_first ? (counts.constraints + i) % steps : i);
}

/* Whether a variable of the step that just ran makes others join. */
static int moves(struct counts counts, size_t at, size_t variable, const uint64_t *table)
{
    size_t number = ROW * counts.strings + variable - counts.strings, string = ROW * variable;
    int is_number = variable >= counts.strings;
    if (planted == queue_first_variable)
        return at == 0;
    if (planted == queue_numbers)
        return !is_number;
    if (planted == queue_changed)
        return is_number ? before[number] != table[number] : memcmp(before + string, table + string, 8 * ROW) != 0;
    return 1;
}

/* The step that is looked at as the i-th, to join behind step j. */
static size_t ordered(size_t i, size_t j, size_t steps)
{
    if (planted == queue_highest)
        return steps - 1 - i;
    if (planted == queue_next)
        return (j + 1 + i) % steps;
    if (planted == queue_high_word && steps > 64)
        return (i + 64) % steps;
    return i;
}

static int joins(struct counts counts, size_t j, size_t other)
{
    if (planted == queue_itself && other == j)
        return 1;
    if (other == j || (planted == queue_trimmings && other >= counts.constraints) || (planted == queue_79 && other == MOST_STEPS - 1))
        return 0;
    return planted == queue_twice || waiting.times[other] == 0;
}

static void join(const uint8_t *file, struct counts counts, const uint64_t *index, size_t j, const uint64_t *table)
{
    size_t steps = counts.constraints + counts.strings, variables[MOST_TOUCHED], count = touched(file, counts, j, variables);
    for (size_t i = 0; i < steps; i++) {
        size_t other = ordered(i, j, steps);
        int shares = 0;
        for (size_t at = 0; at < count; at++)
            shares |= moves(counts, at, variables[at], table) && has_step(index, variables[at], other);
        if (shares && joins(counts, j, other))
            planted == queue_front ? wait_first(other) : wait_behind(other);
    }
}

uint8_t have_values(struct counts counts, const uint64_t *table)
{
    size_t words = counts.words - (planted == queue_number_last && counts.numbers == 16);
    for (size_t at = 0; at < words; at += at < ROW * counts.strings ? ROW : 1)
        if (table[at] == 0)
            return 0;
    return 1;
}

uint32_t run_queue(const uint8_t *file, size_t size, const uint64_t *index, uint64_t *table)
{
    struct counts counts = counts_of(file, size);
    uint32_t struck, counted = 0, ran[MOST_STEPS] = {0};
    all_wait(counts);
    while (waiting.count > 0 && !(planted == queue_dead && !have_values(counts, table))) {
        size_t j = next();
        if (planted == queue_thrice && ++ran[j] > 2)
            continue;
        memcpy(before, table, 8 * counts.words);
        proved_step(file, size, j, table, counts.words, &struck);
        counted += planted != queue_struck || struck > 0;
        if (struck > 0)
            join(file, counts, index, j, table);
    }
    return counted;
}
