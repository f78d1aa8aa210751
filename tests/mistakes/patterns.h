/* A call of Compile, and what comes of it in memory of the stand-in's own. */
#ifndef PATTERNS_H
#define PATTERNS_H

#include "standin.h"

enum {
    LONGEST = COBLESKEG_LONGEST_PATTERN,
    LARGEST = COBLESKEG_LARGEST_AUTOMATON,
    DEEPEST = 31,
    MOST_STATES = 32,
    MOST_SYMBOLS = 64,
    HEAD = 5
};

struct call {
    uint8_t text[LARGEST_COPY];
    size_t size, symbols, room;
    uint8_t number;
    size_t written;
    /* With room for one state too many. */
    uint8_t automaton[LARGEST + MOST_SYMBOLS];
};

/* Spoils the automaton of a call that is accepted. */
void spoil_automaton(struct call *call);

#endif
