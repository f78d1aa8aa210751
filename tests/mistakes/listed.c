/* Lists of calls by an index, spoiled: the calls are taken one by one. */
#include "index.h"

#include <string.h>

/* The index that the list goes by, and whether it is lent as it should be. */
struct lent {
    uint64_t right[COBLESKEG_LARGEST_INDEX];
    const uint64_t *index;
    size_t words;
    int sound;
};

static void choose(const uint8_t *file, size_t size, struct lent *lent)
{
    size_t unused[5], wanted = index_words_of(counts_of(file, size));
    if (proved_read(file, size, unused, unused + 1, unused + 2, unused + 3, unused + 4) != 0)
        return;
    proved_index(file, size, lent->right, wanted);
    int of_length = lent->words != wanted;
    lent->sound = !of_length && memcmp(lent->right, lent->index, 8 * wanted) == 0;
    if ((planted == listed_18 && of_length) || (planted == listed_19 && !of_length))
        lent->index = lent->right, lent->words = wanted;
}

static uint8_t call_one(const uint8_t *file, size_t size, uint32_t call, const struct lent *lent, uint64_t *table, size_t words)
{
    uint32_t count;
    uint8_t every_value;
    if (planted == listed_settle && call == COBLESKEG_SETTLE)
        call = COBLESKEG_SETTLE_BY_INDEX;
    if (planted == listed_step && call == COBLESKEG_SETTLE_BY_INDEX)
        return proved_step(file, size, call, table, words, &count);
    if (call == COBLESKEG_SETTLE_BY_INDEX)
        return proved_settle_by_index(file, size, lent->index, lent->words, table, words, &count, &every_value);
    if (call == COBLESKEG_SETTLE)
        return proved_settle(file, size, table, words, &count, &every_value);
    return proved_step(file, size, call, table, words, &count);
}

void cobleskeg_perform_by_index(const uint8_t *file, size_t size, const uint32_t *list, size_t calls, const uint64_t *index, size_t index_words,
                                uint64_t *table, size_t words)
{
    /* The mistakes of these lists come last of those by an index. */
    if (planted < listed_step || planted > listed_index_written) {
        proved_perform_by_index(file, size, list, calls, index, index_words, table, words);
        return;
    }
    struct lent lent = {.index = index, .words = index_words, .sound = 1};
    if (planted == listed_index_written && index_words > 0)
        *(volatile uint64_t *)(uintptr_t)index = *index;
    choose(file, size, &lent);
    if (planted == listed_refused && !lent.sound)
        return;
    size_t count = planted == listed_400 && calls > 400 ? 400 : calls;
    for (size_t i = 0; i < count; i++)
        if (call_one(file, size, list[i], &lent, table, words) != 0 && planted == listed_ends)
            return;
}
