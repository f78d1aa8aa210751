/* Step, spoiled: the proved entry has narrowed the table, and the mistake then gives back what was struck or strikes more. */
#include "gaps.h"

#include <string.h>

static _Thread_local uint64_t before[COBLESKEG_LARGEST_TABLE];
static _Thread_local uint8_t changed[LARGEST_COPY];

static int one_bit(uint64_t word)
{
    return word != 0 && (word & (word - 1)) == 0;
}

static int highest(uint64_t word)
{
    return word == 0 ? 0 : 63 - __builtin_clzll(word);
}

/* The length of the one string that the row stands for, or -1. */
static int one_string(const uint64_t *row)
{
    if (!one_bit(row[0]))
        return -1;
    int length = highest(row[0]);
    for (int i = 1; i <= length; i++)
        if (!one_bit(row[i]))
            return -1;
    return length;
}

/* Two rows that each stand for one string, of one length, the second read backwards or not, that are alike before this place and differ from there on. */
static int differ_late(const uint64_t *x, const uint64_t *y, int backwards, int least)
{
    int length = one_string(x), first = 1;
    if (length < least || one_string(y) != length)
        return 0;
    while (first <= length && x[first] == y[backwards ? length + 1 - first : first])
        first++;
    return first >= least && first <= length;
}

/* The third is the two others joined, up to this place. */
static int joined_late(const uint64_t *x, const uint64_t *y, const uint64_t *z, int least)
{
    int left = one_string(x), right = one_string(y), first = 1;
    if (left < 0 || right < 0 || one_string(z) != left + right)
        return 0;
    while (first <= left + right && z[first] == (first <= left ? x[first] : y[first - left]))
        first++;
    return first >= least && first <= left + right;
}

/* Puts a row back as it was. */
static void leave(uint64_t *table, size_t string)
{
    memcpy(table + ROW * string, before + ROW * string, 8 * ROW);
}

static void leave_place(uint64_t *table, size_t string, size_t place)
{
    table[ROW * string + place] = before[ROW * string + place];
}

/* Of the row's lengths those in the word stay, and of its symbols those that a string of such a length reaches. */
static void shortened(uint64_t *row, uint64_t word)
{
    row[0] &= word;
    for (size_t i = (size_t)highest(row[0]) + 1; i < ROW; i++)
        row[i] = 0;
}

static void trimmed(uint64_t *table, size_t x)
{
    /* the word that the row's lengths are held against, by a shift that fails at 64 or at 32 bits */
    if (planted == lengths_63 && table[ROW * x] >> 63)
        shortened(table + ROW * x, 0);
    if (planted == lengths_32)
        shortened(table + ROW * x, UINT32_MAX);
    if (planted == trim_63)
        leave_place(table, x, PLACES);
    if (planted == trim_untidy)
        for (size_t i = (size_t)highest(table[ROW * x]) + 1; i < ROW; i++)
            leave_place(table, x, i);
}

/* Eq, Neq and Rev. */
static void paired(uint64_t *table, int kind, size_t x, size_t y)
{
    const uint64_t *one = before + ROW * x, *other = before + ROW * y;
    if ((planted == eq_50 && kind == 1 && differ_late(one, other, 0, 50)) || (planted == rev_50 && kind == 3 && differ_late(one, other, 1, 50))) {
        leave(table, x);
        leave(table, y);
    }
    if (planted == neq_50 && kind == 2 && differ_late(one, other, 0, 50)) {
        memset(table + ROW * x, 0, 8 * ROW);
        memset(table + ROW * y, 0, 8 * ROW);
    }
}

static void joined(uint64_t *table, size_t x, size_t y, size_t z)
{
    if (planted == cat_60 && joined_late(before + ROW * x, before + ROW * y, before + ROW * z, 60)) {
        leave(table, x);
        leave(table, y);
        leave(table, z);
    }
    if (planted == cat_last && table[ROW * x] > 1)
        table[ROW * x + (size_t)highest(table[ROW * x])] = 0;
}

/* Just past an X only an empty part can start: nothing else keeps the place past the longest X, nor the X that ends before the first place. */
static void part(uint64_t *table, size_t x, size_t y, uint64_t *number, uint64_t values)
{
    uint64_t *lengths = table + ROW * x;
    uint64_t past = UINT64_C(2) << highest(*lengths), first = *number & -*number;
    if (planted == sub_63 && !one_bit(*number))
        *number &= ~(UINT64_C(1) << 63);
    if (planted == sub_empty) {
        *number &= ~past;
        *lengths &= ~(first >> 1);
        if (*number == 0) {
            memset(lengths, 0, 8 * ROW);
            memset(table + ROW * y, 0, 8 * ROW);
        }
    }
    if (planted == sub_empty_past && (table[ROW * y] & 1))
        *number |= values & past << 1;
    if (planted == sub_empty_0 && first == 2 && !one_bit(*lengths))
        *lengths &= ~UINT64_C(1);
    if (planted == sub_empty_62 && past >> 63 && !one_bit(*number))
        *number &= ~past;
    if (planted == sub_empty_63 && past == 0 && (table[ROW * y] & 1))
        *number |= values & 1;
}

static void measured(uint64_t *table, size_t x, uint64_t *number)
{
    if (planted == len_63 && *number >> 63 && !one_bit(*number)) {
        *number &= ~(UINT64_C(1) << 63);
        table[ROW * x] &= ~(UINT64_C(1) << 63);
    }
}

/* Regular is spoiled before it is taken: its row loses a symbol, or its automaton an accepting state or its gaps. Answers the file to take it from. */
static const uint8_t *ruled(const uint8_t *file, size_t size, struct counts counts, const uint8_t *record, uint64_t *table)
{
    if (planted == regular_symbol_63)
        for (size_t i = 1; i < ROW; i++)
            table[ROW * record[1] + i] &= ~(UINT64_C(1) << 63);
    int takes = planted >= gap_to_0 && planted <= gap_to_31;
    if (planted != regular_state_31 && !takes)
        return file;
    uint8_t *automaton = changed + automaton_at(file, counts, record[2]);
    memcpy(changed, file, size);
    if (takes)
        take_gaps(automaton, counts.symbols);
    else
        automaton[4] &= 0x7f;
    return changed;
}

/* An automaton without moves accepts at most the empty string. */
static void ruled_out(const uint8_t *file, struct counts counts, const uint8_t *record, uint64_t *table)
{
    if (planted == gap_empty && is_without_moves(file + automaton_at(file, counts, record[2]), counts.symbols))
        table[ROW * record[1]] = 0;
}

static void spoiled(uint64_t *table, struct counts counts, const uint8_t *record)
{
    uint64_t *numbers = table + ROW * counts.strings;
    switch (record[0]) {
    case 1: case 2: case 3: paired(table, record[0], record[1], record[2]); break;
    case 4: joined(table, record[1], record[2], record[3]); break;
    case 5: part(table, record[1], record[2], numbers + record[3], before[ROW * counts.strings + record[3]]); break;
    case 6: measured(table, record[1], numbers + record[2]); break;
    case 7:
        if (planted == regular_63)
            leave_place(table, record[1], PLACES);
    }
}

/* A step that the proved entry accepts. */
static void accepted(const uint8_t *file, size_t size, size_t j, uint64_t *table, uint32_t *struck)
{
    struct counts counts = counts_of(file, size);
    const uint8_t *record = file + 8 * counts.words + 4 * j;
    memcpy(before, table, 8 * counts.words);
    const uint8_t *seen = j < counts.constraints && record[0] == 7 ? ruled(file, size, counts, record, table) : file;
    proved_step(seen, size, j, table, counts.words, struck);
    if (j < counts.constraints && record[0] == 7)
        ruled_out(file, counts, record, table);
    if (j < counts.constraints)
        spoiled(table, counts, record);
    else
        trimmed(table, j - counts.constraints);
    size_t counted = planted == struck_strings ? ROW * counts.strings : counts.words;
    uint32_t lost = bits_of(before, counted) - bits_of(table, counted);
    *struck = planted == struck_8_bits ? lost & 255 : lost;
    if (planted == struck_wide)
        memcpy(struck, &(uint64_t){lost}, 8);
}

/* What the mistaken Step makes of a call that the proved one refuses by this number. */
static uint8_t refused(uint8_t number, const uint8_t *file, size_t size, size_t j, uint64_t *table, size_t words, uint32_t *struck)
{
    struct counts counts = counts_of(file, size);
    size_t steps = counts.constraints + counts.strings;
    if (planted == order_9_10 && number == 9 && counts.symbols < 64)
        for (size_t at = 0; at < words && at < ROW * counts.strings; at++)
            if (at % ROW != 0 && table[at] >> counts.symbols != 0)
                return 10;
    if (planted == order_10_11 && number == 10 && j >= steps)
        return 11;
    if (planted == step_refused && number == 11)
        *struck = 0;
    if (planted == step_32_bits && number == 11)
        return proved_step(file, size, (uint32_t)j, table, words, struck);
    int foreign = planted == lent_symbol_63 && number == 10 && counts.symbols == 63 && j < steps;
    if (foreign || (planted == step_past && number == 11 && j == steps)) {
        *struck = 0;
        return 0;
    }
    return number;
}

/* Whether there are 64 symbols, and a string's row has one of them. */
static int symbols_of_64(const uint8_t *file, size_t size, const uint64_t *table)
{
    struct counts counts = counts_of(file, size);
    for (size_t at = 0; counts.symbols == 64 && at < ROW * counts.strings; at++)
        if (at % ROW != 0 && table[at] != 0)
            return 1;
    return 0;
}

uint8_t cobleskeg_step(const uint8_t *file, size_t size, size_t j, uint64_t *table, size_t words, uint32_t *struck)
{
    static _Thread_local uint64_t tried[COBLESKEG_LARGEST_TABLE];
    uint32_t unused;
    uint64_t *on = words <= COBLESKEG_LARGEST_TABLE ? memcpy(tried, table, 8 * words) : table;
    uint8_t number = proved_step(file, size, j, on, words, &unused);
    if (number != 0)
        return refused(number, file, size, j, table, words, struck);
    if (planted == lent_symbols_64 && symbols_of_64(file, size, table))
        return 10;
    accepted(file, size, j, table, struck);
    return 0;
}
