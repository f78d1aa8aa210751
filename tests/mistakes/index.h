/* What a step touches, what an index says of it, and a queue that goes by an index. */
#ifndef INDEX_H
#define INDEX_H

#include "standin.h"

enum { MOST_STEPS = 80, MOST_TOUCHED = 3 };

/* The variables of step j of a sound file, strings and then numbers; answers how many there are. */
size_t touched(const uint8_t *file, struct counts counts, size_t j, size_t *variables);

/* How many words the index of a file has, by its counts. */
size_t index_words_of(struct counts counts);

/* Whether the index says that step j touches the variable. */
int has_step(const uint64_t *index, size_t variable, size_t j);

/* Runs the steps by the right index, with the mistake; answers how many were run, as the mistake counts them. */
uint32_t run_queue(const uint8_t *file, size_t size, const uint64_t *index, uint64_t *table);

/* A settled row that stands for nothing has no length. The mistake may leave out the sixteenth number. */
uint8_t have_values(struct counts counts, const uint64_t *table);

#endif
