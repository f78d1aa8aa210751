/* Settle by index, spoiled. Most mistakes of refusal 19 are made by mending: the proved entry is lent an index in which all that the mistaken one does not see
 * is right. */
#include "gaps.h"
#include "index.h"

#include <stdlib.h>
#include <string.h>

/* Whether the mistake is in how the steps are run. */
static int in_queue(void)
{
    return planted >= queue_itself && planted <= queue_struck;
}

/* Puts into the index what is right of all that the mistake does not see. */
static void mend(struct counts counts, const uint64_t *right, uint64_t *index)
{
    size_t words = index_words_of(counts), steps = counts.constraints + counts.strings;
    uint64_t sum = 0, sum_right = 0;
    for (size_t at = 0; at < words; at++) {
        size_t low = at % 2 * 64;
        uint64_t beyond = steps >= low + 64 ? 0 : steps <= low ? UINT64_MAX : UINT64_MAX << (steps - low);
        uint64_t unseen = 0;
        if (planted == queue_19_never || (planted == queue_19_last && at == words - 1) || (planted == queue_19_low && low > 0) ||
            (planted == queue_19_numbers && at >= 2 * counts.strings))
            unseen = UINT64_MAX;
        if (planted == queue_19_more)
            unseen = index[at] & ~right[at];
        if (planted == queue_19_less)
            unseen = right[at] & ~index[at];
        if (planted == queue_19_beyond)
            unseen = beyond;
        if (planted == queue_19_79 && steps == MOST_STEPS && low > 0)
            unseen = UINT64_C(1) << (MOST_STEPS - 1 - 64);
        sum += index[at], sum_right += right[at];
        index[at] = (index[at] & ~unseen) | (right[at] & unseen);
    }
    if (planted == queue_19_sum && sum == sum_right)
        memcpy(index, right, 8 * words);
}

/* A call of the entry. */
struct lent {
    const uint8_t *file;
    size_t size;
    const uint64_t *index;
    size_t index_words;
    uint64_t *table;
    size_t words;
    uint32_t *steps;
    uint8_t *every_value;
};

static uint8_t proved_by(const struct lent *lent, const uint64_t *index, size_t index_words)
{
    return proved_settle_by_index(lent->file, lent->size, index, index_words, lent->table, lent->words, lent->steps, lent->every_value);
}

/* The rounds that the table takes, which is settled by them. */
static uint32_t rounds_of(const struct lent *lent, uint64_t *table)
{
    uint32_t rounds;
    uint8_t every_value;
    proved_settle(lent->file, lent->size, table, lent->words, &rounds, &every_value);
    return rounds;
}

/* Whether the words of the index, as far as both go, are not the right ones. */
static int is_wrong(const struct lent *lent, const uint64_t *right, size_t wanted)
{
    return memcmp(lent->index, right, 8 * (lent->index_words < wanted ? lent->index_words : wanted)) != 0;
}

/* What the mistaken entry makes of an index of another length. */
static uint8_t wrong_length(const struct lent *lent, const uint64_t *right, size_t wanted)
{
    uint64_t mended[COBLESKEG_LARGEST_INDEX];
    if (planted == queue_order_18_19 && is_wrong(lent, right, wanted))
        return 19;
    if (planted == queue_longer && lent->index_words == wanted + 1)
        return proved_by(lent, lent->index, wanted);
    if (planted == queue_shorter && lent->index_words + 1 == wanted) {
        memcpy(mended, right, 8 * wanted);
        memcpy(mended, lent->index, 8 * lent->index_words);
        return proved_by(lent, mended, wanted);
    }
    if (planted == queue_refused_18)
        *lent->every_value = 0;
    if (planted == queue_table_18 && lent->words > 0)
        lent->table[0] = 0;
    return 18;
}

static uint8_t wrong_words(const struct lent *lent, struct counts counts, const uint64_t *right)
{
    uint64_t mended[COBLESKEG_LARGEST_INDEX];
    size_t words = index_words_of(counts);
    memcpy(mended, lent->index, 8 * words);
    mend(counts, right, mended);
    if (planted == queue_refused_19)
        *lent->steps = 0;
    if (planted == queue_table_19)
        rounds_of(lent, lent->table);
    return proved_by(lent, mended, words);
}

/* What it makes of a call that is refused whatever the index is: what it lets pass, it leaves as it is. */
static uint8_t refused_before(uint8_t number, const struct lent *lent)
{
    struct counts counts = counts_of(lent->file, lent->size);
    int passes = (planted == queue_8 && number == 8) || (planted == queue_table_longer && number == 9 && lent->words == counts.words + 1) ||
                 (planted == queue_symbol_63 && number == 10 && counts.symbols == 63);
    if (!passes)
        return number;
    *lent->steps = 0;
    *lent->every_value = 0;
    return 0;
}

/* What it makes of a call that the proved one refuses by this number, from 9 on. */
static uint8_t refused(uint8_t number, const struct lent *lent)
{
    uint64_t right[COBLESKEG_LARGEST_INDEX];
    struct counts counts = counts_of(lent->file, lent->size);
    size_t wanted = index_words_of(counts);
    int of_length = lent->index_words != wanted;
    proved_index(lent->file, lent->size, right, wanted);
    if (of_length && ((planted == queue_order_9_18 && number == 9) || (planted == queue_order_10_18 && number == 10)))
        return 18;
    if (!of_length && is_wrong(lent, right, wanted) &&
        ((planted == queue_order_9_19 && number == 9) || (planted == queue_order_10_19 && number == 10)))
        return 19;
    return number == 18 ? wrong_length(lent, right, wanted) : number == 19 ? wrong_words(lent, counts, right) : refused_before(number, lent);
}

/* Spoils the answer of a call that is accepted; the table is as it was lent. */
static void answered(struct counts counts, const struct lent *lent, uint64_t *table)
{
    size_t steps = counts.constraints + counts.strings;
    if (planted == queue_more && *lent->steps > steps)
        *lent->steps += 1;
    if (planted == queue_8_bits)
        *lent->steps &= 255;
    if (planted == queue_rounds)
        *lent->steps = rounds_of(lent, table);
    if (planted == queue_whole_rounds)
        *lent->steps = rounds_of(lent, table) * (uint32_t)steps;
    if (planted == queue_flag_2 && *lent->every_value == 1)
        *lent->every_value = 2;
    if (planted == queue_number_last)
        *lent->every_value = have_values(counts, lent->table);
    if (planted == queue_steps_wide)
        memcpy(lent->steps, &(uint64_t){*lent->steps}, 8);
    if (planted == queue_aborts && lent->index_words == COBLESKEG_LARGEST_INDEX)
        abort();
}

uint8_t cobleskeg_settle_by_index(const uint8_t *file, size_t size, const uint64_t *index, size_t index_words, uint64_t *table, size_t words,
                                  uint32_t *steps, uint8_t *every_value)
{
    static _Thread_local uint64_t lent_table[COBLESKEG_LARGEST_TABLE];
    struct lent lent = {planted == queue_gap ? with_gaps_taken(file, size) : file, size, index, index_words, table, words, steps, every_value};
    if (planted == queue_index_behind)
        *(volatile const uint64_t *)(index + index_words);
    if (planted == queue_index_written && index_words > 0)
        *(volatile uint64_t *)(uintptr_t)index = *index;
    if (words <= COBLESKEG_LARGEST_TABLE)
        memcpy(lent_table, table, 8 * words);
    uint8_t number = proved_by(&lent, index, index_words);
    if (number != 0)
        return number > 8 ? refused(number, &lent) : refused_before(number, &lent);
    if (in_queue()) {
        memcpy(table, lent_table, 8 * words);
        *steps = run_queue(file, size, index, table);
        *every_value = have_values(counts_of(file, size), table);
    }
    answered(counts_of(file, size), &lent, lent_table);
    return 0;
}
