/* Gaps in automata, as the mistaken entries see them. */
#ifndef GAPS_H
#define GAPS_H

#include "standin.h"

enum { GAP = 255, MOST_STATES = 32 };

/* Whether the mistaken Read gives refusal 5 for a gap of a file whose automata are sound. */
int refuses_gaps(const uint8_t *file, size_t size);

/* Makes all moves sound that lie behind a gap in their row. */
void mend_behind_gaps(uint8_t *automaton, size_t symbols);

/* Puts the moves into the automaton that the mistake takes its gaps for. */
void take_gaps(uint8_t *automaton, size_t symbols);

/* The file with the gaps of all its automata taken so; the file itself where it is refused. */
const uint8_t *with_gaps_taken(const uint8_t *file, size_t size);

int is_without_moves(const uint8_t *automaton, size_t symbols);

#endif
