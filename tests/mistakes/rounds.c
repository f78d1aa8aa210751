/* Settle and lists of calls, spoiled. */
#include "standin.h"

#include <stdlib.h>
#include <string.h>

static _Thread_local uint64_t before[COBLESKEG_LARGEST_TABLE];

/* Of every variable but the last number. A settled row that stands for nothing has no length. */
static uint8_t others_have_values(struct counts counts, const uint64_t *table)
{
    for (size_t at = 0; at + 1 < counts.words; at += at < ROW * counts.strings ? ROW : 1)
        if (table[at] == 0)
            return 0;
    return 1;
}

static void accepted(struct counts counts, uint64_t *table, uint32_t *rounds, uint8_t *every_value)
{
    if (planted == rounds_34 && *rounds > 34)
        *rounds = 34;
    if (planted == rounds_once && *rounds > 1)
        *rounds -= 1;
    if (planted == dead_left && *every_value == 0)
        memcpy(table, before, 8 * counts.words);
    if (planted == number_last && counts.numbers == 16)
        *every_value = others_have_values(counts, table);
    if (planted == flag_2 && *every_value == 1)
        *every_value = 2;
    if (planted == aborts && counts.strings == 16 && counts.constraints == 64)
        abort();
}

uint8_t cobleskeg_settle(const uint8_t *file, size_t size, uint64_t *table, size_t words, uint32_t *rounds, uint8_t *every_value)
{
    if (words <= COBLESKEG_LARGEST_TABLE)
        memcpy(before, table, 8 * words);
    uint8_t number = proved_settle(file, size, table, words, rounds, every_value);
    if (number == 0)
        accepted(counts_of(file, size), table, rounds, every_value);
    if (planted == settle_refused && number == 10)
        *every_value = 0;
    return number;
}

/* The calls one by one, up to the first that is refused. */
static void up_to_refused(const uint8_t *file, size_t size, const uint32_t *list, size_t calls, uint64_t *table, size_t words)
{
    uint32_t rounds, struck;
    uint8_t every_value, number = 0;
    for (size_t i = 0; i < calls && number == 0; i++)
        number = list[i] == COBLESKEG_SETTLE ? proved_settle(file, size, table, words, &rounds, &every_value)
                                             : proved_step(file, size, list[i], table, words, &struck);
}

/* 2^32 - 2 as if it were Settle; what comes before it has been done. */
static void with_settle(const uint8_t *file, size_t size, const uint32_t *list, size_t calls, uint64_t *table, size_t words)
{
    for (size_t i = 0; i < calls; i++) {
        uint32_t call = list[i] == COBLESKEG_SETTLE - 1 ? COBLESKEG_SETTLE : list[i];
        proved_perform(file, size, &call, 1, table, words);
    }
}

void cobleskeg_perform(const uint8_t *file, size_t size, const uint32_t *list, size_t calls, uint64_t *table, size_t words)
{
    if (planted == list_written && calls > 0)
        *(volatile uint32_t *)(uintptr_t)list = *list;
    if (planted == list_refused)
        up_to_refused(file, size, list, calls, table, words);
    else if (planted == list_settle)
        with_settle(file, size, list, calls, table, words);
    else
        proved_perform(file, size, list, planted == list_400 && calls > 400 ? 400 : calls, table, words);
}
