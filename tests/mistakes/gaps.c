/* Gaps in automata, spoiled: refused where they are sound, overlooked, or taken for moves. */
#include "gaps.h"

#include <string.h>

static _Thread_local uint8_t taken[LARGEST_COPY];

int is_without_moves(const uint8_t *automaton, size_t symbols)
{
    for (size_t i = 0; i < automaton[0] * symbols; i++)
        if (automaton[5 + i] != GAP)
            return 0;
    return 1;
}

/* Whether there is a gap among the moves of the first so many states. */
static int has_gap(const uint8_t *automaton, size_t symbols, size_t states)
{
    return memchr(automaton + 5, GAP, states * symbols) != NULL;
}

static int refuses(const uint8_t *automaton, size_t symbols)
{
    size_t states = automaton[0];
    return (planted == gap_refused && has_gap(automaton, symbols, states)) ||
           (planted == gap_refused_32 && states == MOST_STATES && has_gap(automaton, symbols, states)) ||
           (planted == gap_refused_0 && has_gap(automaton, symbols, 1)) || (planted == gap_refused_all && is_without_moves(automaton, symbols));
}

int refuses_gaps(const uint8_t *file, size_t size)
{
    size_t unused[5];
    if (planted < gap_refused || planted > gap_refused_all)
        return 0;
    uint8_t number = proved_read(file, size, unused, unused + 1, unused + 2, unused + 3, unused + 4);
    struct counts counts = counts_of(file, size);
    for (size_t i = 0; (number == 0 || number > 5) && i < counts.automata; i++)
        if (refuses(file + automaton_at(file, counts, i), counts.symbols))
            return 1;
    return 0;
}

void mend_behind_gaps(uint8_t *automaton, size_t symbols)
{
    for (uint8_t *row = automaton + 5; row < automaton + 5 + automaton[0] * symbols; row += symbols) {
        uint8_t *gap = memchr(row, GAP, symbols);
        if (gap)
            memset(gap, GAP, (size_t)(row + symbols - gap));
    }
}

/* The state that the mistake takes a gap out of this state for a move to, or a gap. */
static uint8_t led_to(uint8_t state, uint8_t states)
{
    if (planted == gap_to_0 || planted == search_gap)
        return 0;
    if (planted == gap_to_31 && states == MOST_STATES)
        return MOST_STATES - 1;
    int stays = planted == gap_stays || planted == queue_gap || (planted == gap_stays_0 && state == 0) ||
                (planted == gap_stays_31 && state == MOST_STATES - 1);
    return stays ? state : GAP;
}

void take_gaps(uint8_t *automaton, size_t symbols)
{
    for (size_t i = 0; i < automaton[0] * symbols; i++)
        if (automaton[5 + i] == GAP)
            automaton[5 + i] = led_to((uint8_t)(i / symbols), automaton[0]);
}

const uint8_t *with_gaps_taken(const uint8_t *file, size_t size)
{
    size_t unused[5];
    if (proved_read(file, size, unused, unused + 1, unused + 2, unused + 3, unused + 4) != 0)
        return file;
    memcpy(taken, file, size);
    struct counts counts = counts_of(file, size);
    for (size_t i = 0; i < counts.automata; i++)
        take_gaps(taken + automaton_at(taken, counts, i), counts.symbols);
    return taken;
}
