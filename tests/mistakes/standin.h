/* A stand-in for the library with one planted mistake. It calls the proved entries by other names, and spoils what they are given or what they answer. */
#ifndef STANDIN_H
#define STANDIN_H

#include <cobleskeg.h>

/* The mistakes by their names; `none` stands for the library as it is. */
enum mistake {
    none,
#define MISTAKE(name, what) name,
#include "list.h"
#undef MISTAKE
};

/* The one that COBLESKEG_MISTAKE names. */
extern enum mistake planted;

enum { TRAILER = 24, ROW = 64, PLACES = 63, LARGEST_COPY = 1 << 18 };

/* What a trailer says, whether it is in range or not. */
struct counts {
    size_t symbols, strings, numbers, automata, constraints, words;
};

struct counts counts_of(const uint8_t *file, size_t size);

/* Where an automaton begins in a sound file. */
size_t automaton_at(const uint8_t *file, struct counts counts, size_t which);

uint32_t bits_of(const uint64_t *words, size_t count);

uint8_t proved_read(const uint8_t *file, size_t size, size_t *symbols, size_t *strings, size_t *numbers, size_t *automata, size_t *constraints);
uint8_t proved_unpack(const uint8_t *file, size_t size, uint64_t *table, size_t words);
uint8_t proved_step(const uint8_t *file, size_t size, size_t j, uint64_t *table, size_t words, uint32_t *struck);
uint8_t proved_settle(const uint8_t *file, size_t size, uint64_t *table, size_t words, uint32_t *rounds, uint8_t *every_value);
uint8_t proved_search(const uint8_t *file, size_t size, uint32_t budget, uint64_t *room, size_t room_words, uint64_t *table, size_t words,
                      uint8_t *outcome, uint32_t *nodes);
void proved_perform(const uint8_t *file, size_t size, const uint32_t *list, size_t calls, uint64_t *table, size_t words);
uint8_t proved_index(const uint8_t *file, size_t size, uint64_t *index, size_t index_words);
uint8_t proved_settle_by_index(const uint8_t *file, size_t size, const uint64_t *index, size_t index_words, uint64_t *table, size_t words,
                               uint32_t *steps, uint8_t *every_value);
void proved_perform_by_index(const uint8_t *file, size_t size, const uint32_t *list, size_t calls, const uint64_t *index, size_t index_words,
                             uint64_t *table, size_t words);
uint8_t proved_compile(const uint8_t *text, size_t size, size_t symbols, uint8_t *buffer, size_t room, size_t *written);

#endif
