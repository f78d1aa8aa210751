/* The automata that Compile writes, spoiled: the proved entry has made one, and the mistake changes its moves, its accepting states or its numbers. */
#include "patterns.h"

#include <string.h>

static uint8_t *row(struct call *call, size_t state)
{
    return call->automaton + HEAD + state * call->symbols;
}

static uint32_t accepting(const struct call *call)
{
    const uint8_t *at = call->automaton + 1;
    return at[0] | (uint32_t)at[1] << 8 | (uint32_t)at[2] << 16 | (uint32_t)at[3] << 24;
}

static void set_accepting(struct call *call, uint32_t set)
{
    for (int i = 0; i < 4; i++)
        call->automaton[1 + i] = (uint8_t)(set >> 8 * i);
}

/* The same automaton, with state order[n] as its state n. */
static void renumber(struct call *call, const uint8_t *order)
{
    uint8_t states = call->automaton[0], number[MOST_STATES], was[sizeof call->automaton];
    uint32_t set = accepting(call), turned = 0;
    memcpy(was, call->automaton, sizeof was);
    for (uint8_t n = 0; n < states; n++) {
        number[order[n]] = n;
        turned |= (set >> order[n] & 1) << n;
    }
    for (uint8_t n = 0; n < states; n++)
        for (size_t a = 0; a < call->symbols; a++)
            row(call, n)[a] = number[was[HEAD + order[n] * call->symbols + a]];
    set_accepting(call, turned);
}

/* Finds the states that are not yet numbered from this one on. */
static void go_deep(struct call *call, uint8_t state, uint8_t *order, uint8_t *count)
{
    order[(*count)++] = state;
    for (size_t a = 0; a < call->symbols; a++)
        if (!memchr(order, row(call, state)[a], *count))
            go_deep(call, row(call, state)[a], order, count);
}

static void go_downwards(struct call *call, uint8_t *order)
{
    uint8_t count = 1;
    order[0] = 0;
    for (uint8_t at = 0; at < count; at++)
        for (size_t a = call->symbols; a-- > 0;)
            if (!memchr(order, row(call, order[at])[a], count))
                order[count++] = row(call, order[at])[a];
}

static void number_otherwise(struct call *call)
{
    uint8_t order[MOST_STATES], count = 0, states = call->automaton[0];
    for (uint8_t n = 0; n < states; n++)
        order[n] = n;
    if (planted == compile_downwards)
        go_downwards(call, order);
    if (planted == compile_depth_first)
        go_deep(call, 0, order, &count);
    if (planted == compile_swapped && states == MOST_STATES)
        order[MOST_STATES - 2] = MOST_STATES - 1, order[MOST_STATES - 1] = MOST_STATES - 2;
    renumber(call, order);
}

/* Takes a state out whose moves are to be the start's, and gives those behind it the number before theirs. */
static void merge(struct call *call, uint8_t state)
{
    uint32_t set = accepting(call), below = (UINT32_C(1) << state) - 1;
    set_accepting(call, (set & below) | (set >> 1 & ~below));
    call->automaton[0] -= 1;
    call->written -= call->symbols;
    memmove(row(call, state), row(call, state + 1u), (size_t)(call->automaton[0] - state) * call->symbols);
    for (uint8_t *move = row(call, 0); move < call->automaton + call->written; move++)
        *move = *move == state ? 0 : *move > state ? *move - 1 : *move;
}

static void merge_with_start(struct call *call)
{
    uint32_t set = accepting(call);
    for (uint8_t state = 1; state < call->automaton[0]; state++)
        if (memcmp(row(call, 0), row(call, state), call->symbols) == 0 && (set & 1) == (set >> state & 1)) {
            merge(call, state);
            return;
        }
}

/* Where nothing is accepted any more, every move leads to the same state. */
static int is_empty_set(struct call *call, uint8_t state)
{
    for (size_t a = 0; a < call->symbols; a++)
        if (row(call, state)[a] != state)
            return 0;
    return (accepting(call) >> state & 1) == 0;
}

static void empty_set_is_start(struct call *call)
{
    for (uint8_t *move = row(call, 0); move < call->automaton + call->written; move++)
        if (is_empty_set(call, *move))
            *move = 0;
}

void spoil_automaton(struct call *call)
{
    uint8_t states = call->automaton[0], *last = call->automaton + call->written - 1;
    int longest = call->size == LONGEST, largest = call->written == LARGEST;
    if (planted == compile_start)
        call->automaton[1] &= 0xfe;
    if (planted == compile_accepting_31)
        call->automaton[4] &= 0x7f;
    if ((planted == compile_move_63 && longest) || (planted == compile_move_64 && largest) || (planted == compile_move_all && longest && largest))
        *last = *last == 0 ? 1 : *last - 1;
    if (planted == compile_move_empty && states == MOST_STATES)
        empty_set_is_start(call);
    if (planted == compile_downwards || planted == compile_depth_first || planted == compile_swapped)
        number_otherwise(call);
    if (planted == compile_merged)
        merge_with_start(call);
}
