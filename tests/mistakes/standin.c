/* Which mistake is planted, and what the spoiled entries share. */
#include "standin.h"

#include <stdio.h>
#include <stdlib.h>
#include <string.h>

enum mistake planted;

static const char *const names[] = {
    "none",
#define MISTAKE(name, what) #name,
#include "list.h"
#undef MISTAKE
};

/* Before anything is called. A name that is not in the list ends the process, so that no run passes for want of its mistake. */
__attribute__((constructor)) static void plant(void)
{
    const char *name = getenv("COBLESKEG_MISTAKE");
    if (!name)
        return;
    for (size_t at = 0; at < sizeof names / sizeof *names; at++)
        if (strcmp(name, names[at]) == 0) {
            planted = (enum mistake)at;
            return;
        }
    fprintf(stderr, "there is no mistake %s\n", name);
    exit(2);
}

struct counts counts_of(const uint8_t *file, size_t size)
{
    struct counts counts = {0};
    if (size < TRAILER)
        return counts;
    const uint8_t *trailer = file + size - TRAILER;
    counts.symbols = trailer[0], counts.strings = trailer[1], counts.numbers = trailer[2], counts.automata = trailer[3];
    counts.constraints = trailer[4] + 256u * trailer[5];
    counts.words = ROW * counts.strings + counts.numbers;
    return counts;
}

size_t automaton_at(const uint8_t *file, struct counts counts, size_t which)
{
    size_t at = 8 * counts.words + 4 * counts.constraints;
    for (size_t i = 0; i < which; i++)
        at += 5 + file[at] * counts.symbols;
    return at;
}

uint32_t bits_of(const uint64_t *words, size_t count)
{
    uint32_t bits = 0;
    for (size_t i = 0; i < count; i++)
        bits += (uint32_t)__builtin_popcountll(words[i]);
    return bits;
}
