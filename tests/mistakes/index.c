/* Index, spoiled: the proved entry has built the index, and the mistake then takes bits out of it, puts others in, or moves words. */
#include "index.h"

#include <string.h>

size_t touched(const uint8_t *file, struct counts counts, size_t j, size_t *variables)
{
    if (j >= counts.constraints) {
        variables[0] = j - counts.constraints;
        return 1;
    }
    const uint8_t *record = file + 8 * counts.words + 4 * j;
    size_t numbers = counts.strings;
    variables[0] = record[1], variables[1] = record[2], variables[2] = record[3];
    switch (record[0]) {
    case 4: return 3;
    case 5: variables[2] += numbers; return 3;
    case 6: variables[1] += numbers; return 2;
    case 7: return 1;
    default: return 2;
    }
}

size_t index_words_of(struct counts counts)
{
    return 2 * (counts.strings + counts.numbers);
}

int has_step(const uint64_t *index, size_t variable, size_t j)
{
    return index[2 * variable + j / 64] >> j % 64 & 1;
}

static void add(uint64_t *index, size_t variable, size_t j)
{
    index[2 * variable + j / 64] |= UINT64_C(1) << j % 64;
}

static void drop(uint64_t *index, size_t variable, size_t j)
{
    index[2 * variable + j / 64] &= ~(UINT64_C(1) << j % 64);
}

static void spoil_constraint(const uint8_t *file, struct counts counts, size_t j, uint64_t *index)
{
    const uint8_t *record = file + 8 * counts.words + 4 * j;
    size_t variables[MOST_TOUCHED], count = touched(file, counts, j, variables);
    if (planted == index_automaton && record[0] == 7 && record[2] < counts.numbers)
        add(index, counts.strings + record[2], j);
    for (size_t i = 1; planted == index_first_argument && i < count; i++)
        drop(index, variables[i], j);
    if ((planted == index_cat_third && record[0] == 4) || (planted == index_sub_number && record[0] == 5))
        drop(index, variables[2], j);
    if (planted == index_63 && j == 63)
        for (size_t i = 0; i < count; i++)
            drop(index, variables[i], j);
}

static void spoil_trimming(struct counts counts, size_t x, uint64_t *index)
{
    size_t j = counts.constraints + x;
    if (planted == index_trimmings || planted == index_trimming_next || (planted == index_79 && j == MOST_STEPS - 1))
        drop(index, x, j);
    if (planted == index_trimming_next)
        add(index, x, j + 1);
    if (planted == index_modulo_64 && j >= 64)
        add(index, x, j - 64);
}

static void swap(uint64_t *one, uint64_t *other)
{
    uint64_t was = *one;
    *one = *other, *other = was;
}

static void move_words(struct counts counts, uint64_t *index)
{
    static _Thread_local uint64_t was[COBLESKEG_LARGEST_INDEX];
    size_t words = index_words_of(counts), numbers = 2 * counts.numbers;
    if (planted == index_numbers_first) {
        memcpy(was, index, 8 * words);
        memcpy(index, was + words - numbers, 8 * numbers);
        memcpy(index + numbers, was, 8 * (words - numbers));
    }
    if (planted == index_high_first && counts.constraints + counts.strings > 64)
        for (size_t at = 0; at < words; at += 2)
            swap(index + at, index + at + 1);
}

/* Puts back what the words of a variable were that no step touches. */
static void keep(size_t words, const uint64_t *before, uint64_t *index)
{
    for (size_t at = 0; at < words; at += 2)
        if (index[at] == 0 && index[at + 1] == 0)
            memcpy(index + at, before + at, 16);
}

static void accepted(const uint8_t *file, struct counts counts, const uint64_t *before, uint64_t *index)
{
    for (size_t j = 0; j < counts.constraints; j++)
        spoil_constraint(file, counts, j, index);
    for (size_t x = 0; x < counts.strings; x++)
        spoil_trimming(counts, x, index);
    move_words(counts, index);
    if (planted == index_kept)
        keep(index_words_of(counts), before, index);
    if (planted == index_behind)
        *(volatile uint64_t *)(index + index_words_of(counts)) = index[index_words_of(counts)];
}

/* What the mistaken Index makes of a call that the proved one refuses by this number. */
static uint8_t refused(uint8_t number, const uint8_t *file, size_t size, uint64_t *index, size_t words)
{
    uint64_t right[COBLESKEG_LARGEST_INDEX];
    size_t wanted = index_words_of(counts_of(file, size));
    if (planted == index_order_8_18 && number == 8 && words != wanted)
        return 18;
    if (planted == index_8 && number == 8)
        return words == wanted ? 0 : 18;
    if (words > 0 && ((planted == index_refused_8 && number == 8) || (planted == index_refused_18 && number == 18)))
        index[0] = 0;
    if (planted == index_longer && number == 18 && words == wanted + 1)
        return proved_index(file, size, index, wanted);
    if (planted == index_shorter && number == 18 && words + 1 == wanted) {
        proved_index(file, size, right, wanted);
        memcpy(index, right, 8 * words);
        return 0;
    }
    return number;
}

uint8_t cobleskeg_index(const uint8_t *file, size_t size, uint64_t *index, size_t index_words)
{
    uint64_t before[COBLESKEG_LARGEST_INDEX];
    if (index_words <= COBLESKEG_LARGEST_INDEX)
        memcpy(before, index, 8 * index_words);
    uint8_t number = proved_index(file, size, index, index_words);
    if (number != 0)
        return refused(number, file, size, index, index_words);
    if (planted == index_largest && index_words == COBLESKEG_LARGEST_INDEX) {
        memcpy(index, before, sizeof before);
        return 18;
    }
    accepted(file, counts_of(file, size), before, index);
    return 0;
}
