/* Read and Unpack, spoiled. Most mistakes of Read are made by mending: the proved entry is given a copy in which all that the mistaken one does not see is
 * sound. */
#include "gaps.h"

#include <string.h>

/* A copy of the file, and where its parts lie by the counts; the automata lie behind the constraints. */
struct copy {
    uint8_t bytes[LARGEST_COPY];
    size_t size;
    struct counts counts;
};

static _Thread_local struct copy copy;

static uint8_t *trailer(void)
{
    return copy.bytes + copy.size - TRAILER;
}

static uint8_t *record(size_t j)
{
    return copy.bytes + 8 * copy.counts.words + 4 * j;
}

static uint32_t distance(int which)
{
    const uint8_t *at = trailer() + 8 + 4 * which;
    return at[0] | (uint32_t)at[1] << 8 | (uint32_t)at[2] << 16 | (uint32_t)at[3] << 24;
}

static void set_distance(int which, uint32_t value)
{
    for (int i = 0; i < 4; i++)
        trailer()[8 + 4 * which + i] = (uint8_t)(value >> 8 * i);
}

static uint64_t word(size_t at)
{
    uint64_t value = 0;
    for (int i = 7; i >= 0; i--)
        value = value << 8 | copy.bytes[8 * at + (size_t)i];
    return value;
}

/* What the proved Read makes of the copy; the counts go nowhere. */
static uint8_t asked(void)
{
    size_t unused[5];
    return proved_read(copy.bytes, copy.size, unused, unused + 1, unused + 2, unused + 3, unused + 4);
}

/* Whether the trailer's distances fit the counts and the size, so that the parts can be walked. */
static int laid(void)
{
    uint64_t constraints = 4 * copy.counts.constraints + (uint64_t)distance(2);
    return distance(1) == constraints && distance(0) == 8 * copy.counts.words + constraints && copy.size == distance(0) + (size_t)TRAILER;
}

/* A count one past its limit becomes the limit. */
static void mend_count(size_t at, uint8_t limit)
{
    if (trailer()[at] == limit + 1)
        trailer()[at] = limit;
}

/* A record that is sound wherever there is a string and a number. */
static void replace(uint8_t *at)
{
    static const uint8_t length[4] = {6, 0, 0, 0};
    memcpy(at, length, 4);
}

static int names_string(const uint8_t *at, size_t name)
{
    size_t strings = at[0] <= 3 ? 2 : at[0] == 4 ? 3 : at[0] == 5 ? 2 : 1;
    for (size_t i = 1; i <= strings; i++)
        if (at[i] == name)
            return 1;
    return 0;
}

static int names_number(const uint8_t *at, size_t name)
{
    return (at[0] == 5 && at[3] == name) || (at[0] == 6 && at[2] == name);
}

static void mend_records(void)
{
    struct counts counts = copy.counts;
    for (size_t j = 0; j < counts.constraints; j++) {
        uint8_t *at = record(j);
        if ((planted == string_16 && counts.strings == 16 && names_string(at, 16)) ||
            (planted == number_16 && counts.numbers == 16 && names_number(at, 16)) ||
            (planted == automaton_8 && counts.automata == 8 && at[0] == 7 && at[2] == 8) || (planted == record_63 && j == PLACES) ||
            (planted == cat_twice && at[0] == 4 && at[2] == at[3]))
            replace(at);
        if (planted == unused_argument && at[0] == 7)
            at[3] = 0;
    }
}

/* Takes bytes of the automata away. */
static void cut(size_t from, size_t count)
{
    memmove(copy.bytes + from, copy.bytes + from + count, copy.size - from - count);
    copy.size -= count;
    for (int which = 0; which < 3; which++)
        set_distance(which, distance(which) - (uint32_t)count);
}

/* Mends one automaton, which has all its bytes. */
static void mend_automaton(uint8_t *at, size_t moves, size_t which)
{
    if (planted == accepting_31 && at[0] == 31)
        at[4] &= 0x7f;
    for (size_t move = 5; move < 5 + moves; move++)
        if ((planted == move_32 && at[0] == 32 && at[move] == 32) || (planted == automaton_last && which == 7) || (planted == gap_254 && at[move] == 254) ||
            (planted == gap_128 && at[move] >= 128))
            at[move] = 0;
    if (planted == gap_behind)
        mend_behind_gaps(at, copy.counts.symbols);
}

static void mend_automata(void)
{
    size_t at = copy.size - TRAILER - distance(2);
    for (size_t i = 0; i < copy.counts.automata; i++) {
        size_t symbols = copy.counts.symbols, left = copy.size - TRAILER - at;
        if (left < 5 || left < 5 + copy.bytes[at] * symbols)
            return;
        if (planted == states_33 && copy.bytes[at] == 33) {
            cut(at + 5 + 32 * symbols, symbols);
            copy.bytes[at] = 32;
        }
        size_t moves = copy.bytes[at] * symbols;
        mend_automaton(copy.bytes + at, moves, i);
        at += 5 + moves;
    }
    if (planted == automata_rest && copy.size > COBLESKEG_LARGEST_FILE)
        cut(at, copy.size - TRAILER - at);
}

static void mend_table(void)
{
    for (size_t at = 0; at < ROW * copy.counts.strings; at++) {
        if (at % ROW == 0)
            continue;
        if (planted == symbol_63 && copy.counts.symbols == 63)
            copy.bytes[8 * at + 7] &= 0x7f;
        if ((planted == place_63 && at == 16 * ROW - 1) || planted == order_6_7)
            memset(copy.bytes + 8 * at, 0, 8);
    }
}

static void mend_trailer(void)
{
    if (planted == mark_last)
        copy.bytes[copy.size - 1] = 'L';
    if (planted == order_2_3)
        memcpy(trailer() + 20, "TAIL", 4);
    if (planted == symbols_65)
        mend_count(0, 64);
    if (planted == strings_17)
        mend_count(1, 16);
    if (planted == numbers_17)
        mend_count(2, 16);
    if (planted == automata_9)
        mend_count(3, 8);
    if (planted == constraints_65 && copy.counts.constraints == 65)
        trailer()[4] = 64;
    if (planted == constraints_high)
        trailer()[5] = 0;
    if (planted == spare_7 || planted == order_3_4)
        trailer()[7] = 0;
    if (planted == order_3_4)
        trailer()[6] = 0;
}

/* Makes the table's distance and the size fit, if the file has as many bytes as that needs: those before the table go. */
static int fit(void)
{
    uint64_t table = 8 * copy.counts.words + (uint64_t)distance(1);
    if (copy.size < table + TRAILER)
        return 0;
    set_distance(0, (uint32_t)table);
    memmove(copy.bytes, copy.bytes + copy.size - TRAILER - table, table + TRAILER);
    copy.size = table + TRAILER;
    return 1;
}

/* Whether the table has a symbol that there is not. */
static int foreign(void)
{
    for (size_t at = 0; at < ROW * copy.counts.strings; at++)
        if (at % ROW != 0 && copy.counts.symbols < 64 && word(at) >> copy.counts.symbols != 0)
            return 1;
    return 0;
}

/* Whether the first record that is refused, each by itself, names a string twice. */
static int repeats_first(void)
{
    size_t constraints = copy.counts.constraints;
    uint8_t records[4 * 64], number = 0;
    memcpy(records, record(0), 4 * constraints);
    for (size_t j = 0; j < constraints && number == 0; j++) {
        for (size_t i = 0; i < constraints; i++)
            replace(record(i));
        memcpy(record(j), records + 4 * j, 4);
        number = asked();
    }
    return number == 8;
}

/* Distances that fit by so many of their bits. */
static int laid_by(uint64_t mask)
{
    uint64_t constraints = 4 * copy.counts.constraints + (uint64_t)distance(2);
    return ((distance(1) ^ constraints) & mask) == 0 && ((distance(0) ^ (8 * copy.counts.words + (uint64_t)distance(1))) & mask) == 0 &&
           ((copy.size ^ (distance(0) + (uint64_t)TRAILER)) & mask) == 0;
}

/* What the mistaken Read makes of a file that the proved one refuses by this number. */
static uint8_t mistaken(uint8_t number)
{
    if (planted == size_23 && number == 1 && copy.size == 23)
        return 2;
    if (planted == order_1_2 && number == 1 && (copy.size < 4 || memcmp(copy.bytes + copy.size - 4, "TAIL", 4) != 0))
        return 2;
    if (copy.size < TRAILER)
        return number;
    if (number == 4 && ((planted == distances_32 && laid_by(UINT32_MAX)) || (planted == distances_16 && laid_by(UINT16_MAX))))
        return 5;
    if (planted == order_4_5)
        return number == 4 && fit() && asked() == 5 ? 5 : number;
    if (planted == size_large && copy.size > COBLESKEG_LARGEST_FILE && number > 4)
        return 4;
    if (planted == order_5_6 && number == 5 && foreign())
        return 6;
    if (planted == order_7_8 && number == 7 && copy.counts.strings > 0 && copy.counts.numbers > 0 && repeats_first())
        return 8;
    mend_trailer();
    copy.counts = counts_of(copy.bytes, copy.size);
    if (number > 4 && laid()) {
        mend_records();
        mend_table();
        mend_automata();
    }
    return asked();
}

/* Of two refusals the other, where the mistake is their order and the mended file has it. */
static uint8_t in_order(uint8_t number, uint8_t mended)
{
    int turned = (planted == order_2_3 && number == 2 && mended == 3) || (planted == order_3_4 && number == 3 && mended == 4) ||
                 (planted == order_6_7 && number == 6 && mended == 7);
    int ordered = planted == order_2_3 || planted == order_3_4 || planted == order_6_7;
    return ordered && !turned ? number : mended;
}

uint8_t cobleskeg_read(const uint8_t *file, size_t size, size_t *symbols, size_t *strings, size_t *numbers, size_t *automata, size_t *constraints)
{
    if (refuses_gaps(file, size))
        return 5;
    uint8_t number = proved_read(file, size, symbols, strings, numbers, automata, constraints);
    if (planted == read_refused && number == 8)
        *symbols = counts_of(file, size).symbols;
    if (planted == file_behind)
        *(volatile const uint8_t *)(file + size);
    if (planted == file_written && size > 0)
        *(volatile uint8_t *)(uintptr_t)file = *file;
    /* The mistakes of Read come first in the list. */
    if (planted == none || planted > order_7_8 || number == 0 || size > LARGEST_COPY)
        return number;
    memcpy(copy.bytes, file, size);
    copy.size = size;
    copy.counts = counts_of(file, size);
    return in_order(number, mistaken(number));
}

uint8_t cobleskeg_unpack(const uint8_t *file, size_t size, uint64_t *table, size_t words)
{
    size_t wanted = counts_of(file, size).words;
    uint8_t number = proved_unpack(file, size, table, words);
    if (planted == order_8_9 && number == 8 && words != wanted)
        return 9;
    if (planted == table_longer && number == 9 && words == wanted + 1)
        return proved_unpack(file, size, table, wanted);
    if (planted == table_behind && number == 0)
        *(volatile uint64_t *)(table + words) = table[words];
    if (planted == table_before && number == 0)
        table[-1] = 0;
    return number;
}
