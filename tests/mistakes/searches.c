/* Search, spoiled. */
#include "gaps.h"

#include <string.h>

static _Thread_local uint64_t own_room[3 * COBLESKEG_LARGEST_TABLE];

/* What the mistaken Search makes of a call that the proved one refuses by this number. */
static uint8_t refused(uint8_t number, const uint8_t *file, size_t size, uint32_t budget, uint64_t *room, size_t room_words, uint64_t *table, size_t words,
                       uint8_t *outcome, uint32_t *nodes)
{
    size_t wanted = counts_of(file, size).words;
    if (planted == order_8_12 && number == 8 && room_words < 3 * wanted)
        return 12;
    if (planted == order_12_13 && number == 12 && words != wanted)
        return 13;
    if (planted == room_short && number == 12 && room_words + 1 == 3 * wanted && words == wanted) {
        memset(room, 0, 8 * room_words);
        return proved_search(file, size, budget, own_room, 3 * wanted, table, words, outcome, nodes);
    }
    if (planted == answer_longer && number == 13 && words == wanted + 1)
        return proved_search(file, size, budget, room, room_words, table, wanted, outcome, nodes);
    if (planted == search_refused && number == 13)
        *outcome = COBLESKEG_NONE;
    return number;
}

static void counted(uint32_t budget, uint8_t *outcome, uint32_t *nodes)
{
    if (planted == found_549 && *outcome == COBLESKEG_FOUND && *nodes > 549)
        *nodes += 1;
    if (planted == none_2047 && *outcome == COBLESKEG_NONE && *nodes > 2047)
        *nodes -= 1;
    if (planted == nodes_16_bits)
        *nodes &= 0xffff;
    if (planted == budget_exact && *outcome != COBLESKEG_SPENT && *nodes == budget && budget > 3000)
        *outcome = COBLESKEG_SPENT;
}

static void written(struct counts counts, uint64_t *room, size_t room_words, uint64_t *table, uint8_t outcome)
{
    size_t cleared = 3 * counts.words;
    if (planted == spent_written && outcome == COBLESKEG_SPENT && counts.words > 0)
        table[0] = 0;
    if (planted == room_left && cleared > 0)
        room[cleared - 1] = 1;
    if (planted == room_beyond && room_words > cleared + 900)
        room[cleared + 900] = 0;
    if (planted == room_far)
        room[room_words + 3000] = 0;
}

uint8_t cobleskeg_search(const uint8_t *file, size_t size, uint32_t budget, uint64_t *room, size_t room_words, uint64_t *table, size_t words,
                         uint8_t *outcome, uint32_t *nodes)
{
    uint32_t seen = budget;
    if (planted == budget_4096 && budget > 4096 && budget <= 65536)
        seen = 4096;
    if (planted == budget_short && budget > 3000 && budget < UINT32_MAX)
        seen = budget + 1;
    const uint8_t *taken = planted == search_gap ? with_gaps_taken(file, size) : file;
    uint8_t number = proved_search(taken, size, seen, room, room_words, table, words, outcome, nodes);
    if (number != 0)
        return refused(number, file, size, budget, room, room_words, table, words, outcome, nodes);
    if (planted == budget_short && *outcome == COBLESKEG_SPENT)
        *nodes = budget;
    counted(budget, outcome, nodes);
    written(counts_of(file, size), room, room_words, table, *outcome);
    return 0;
}
