/* Cobleskeg: can two parts of a template set ever produce one name?
 *
 * The entries of the proved library, for programs in C. `python3 tools/build.py cobleskeg_c` builds the archive target/staticlib/libcobleskeg_c.a; of other
 * libraries it takes memcpy and memset alone. docs/GUIDE.md says how to model a question as a problem file, and how to read the answer.
 *
 * Tables. The alphabet has k symbols, 0 to k - 1. A problem has s strings and t numbers. A string's row is 64 words: bit l of word 0 allows the length l, bit
 * a of word i (1 to 63) allows the symbol a at place i. A number has one word: bit v allows the value v. A table is the s rows, then the t words of the
 * numbers: 64 s + t words.
 *
 * Answers. Each entry that can refuse returns 0 where it accepts, or else the number of the first refusal that applies, in the order of the numbers that are
 * listed at the entry. A refusal writes nothing: neither a table, nor the room, nor a buffer, nor a result behind a pointer.
 *
 *    1  file    it has less than 24 bytes
 *    2  file    it does not end in the bytes TAIL
 *    3  file    a count is out of range (k 1 to 64, s and t 0 to 16, automata 0 to 8, constraints 0 to 64), or bytes 6 and 7 of the trailer are not 0
 *    4  file    its parts do not lie one behind the other, as the distances in the trailer must say
 *    5  file    its automata are not exactly as many as it counts, each with 1 to 32 states, its accepting ones among them, and every next state one of them, or
 *               255 for no move
 *    6  file    a symbol word of its table has a bit at k or above
 *    7  file    a constraint has a kind outside 1 to 7, an argument that names nothing, or an unused one that is not 0
 *    8  file    a constraint names one string twice
 *    9  table   it has not 64 s + t words
 *   10  table   a symbol word has a bit at k or above
 *   11  step    there is no such step: it is constraints + s or above
 *   12  room    it has less than 3 (64 s + t) words
 *   13  answer  it has not 64 s + t words
 *   14  text    it has more than 63 bytes, or is no pattern
 *   15  text    the number of symbols is not 1 to 64, or a letter's symbol is not below it
 *   16  text    its automaton has more than 32 states
 *   17  buffer  it is shorter than the automaton's bytes
 *   18  index   it has not 2 (s + t) words
 *   19  index   its words are not the index of this file
 *
 * What the caller sees to, and no entry can test: a pointer is not null (also where the count beside it is 0) and is aligned for its type, the memory behind
 * it has as many elements as the count says, and no memory that an entry writes overlaps other memory that it is given. Given that, every call ends and
 * touches nothing else; no entry keeps a pointer, allocates, or has state of its own, so calls on separate buffers may run at once.
 *
 * Stack. Perform goes deepest: 24,384 bytes below its caller, measured on problems at every limit (bench/stack.py); one Regular constraint on a string of 63
 * symbols is enough for that. Settle and Search take nearly as much, Step some 4,000 less, and Compile 14,944 on 63 letters side by side. A thread that calls
 * them should have COBLESKEG_STACK bytes of stack, or more where the caller itself needs much.
 */
#ifndef COBLESKEG_H
#define COBLESKEG_H

#include <stddef.h>
#include <stdint.h>

#ifdef __cplusplus
extern "C" {
#endif

/* The version of this header; CHANGELOG.md says what each part of it promises. */
#define COBLESKEG_VERSION_MAJOR 0
#define COBLESKEG_VERSION_MINOR 1
#define COBLESKEG_VERSION_PATCH 0
#define COBLESKEG_VERSION (10000 * COBLESKEG_VERSION_MAJOR + 100 * COBLESKEG_VERSION_MINOR + COBLESKEG_VERSION_PATCH)

/* The outcomes of a search. */
#define COBLESKEG_FOUND 1
#define COBLESKEG_NONE 2
#define COBLESKEG_SPENT 3

/* The number that stands for Settle in a list of calls. */
#define COBLESKEG_SETTLE UINT32_C(4294967295)

/* The number that stands for Settle by index in a list of calls that is lent an index. */
#define COBLESKEG_SETTLE_BY_INDEX UINT32_C(4294967294)

/* The largest problem file, in bytes, and the largest table and the largest index, in words. */
#define COBLESKEG_LARGEST_FILE 25024
#define COBLESKEG_LARGEST_TABLE 1040
#define COBLESKEG_LARGEST_INDEX 64

/* In the place of a next state of an automaton: there is no move, and a string that comes there is rejected. */
#define COBLESKEG_GAP 255

/* The longest text of a pattern, and the largest automaton, in bytes. */
#define COBLESKEG_LONGEST_PATTERN 63
#define COBLESKEG_LARGEST_AUTOMATON 2053

/* The stack of a thread that calls the entries, in bytes: more than twice what they were measured to take. */
#define COBLESKEG_STACK 65536

/* The version of the archive that is linked. Where it is not COBLESKEG_VERSION, the program was compiled with another archive's header. */
uint32_t cobleskeg_version(void);

/* Read: the counts of a problem file.
 * Refuses 1 to 8. Accepted, it writes all five counts. */
uint8_t cobleskeg_read(const uint8_t *file, size_t size, size_t *symbols, size_t *strings, size_t *numbers, size_t *automata,
                       size_t *constraints);

/* Unpack: the file's table into `table`.
 * Refuses 1 to 9. Accepted, every word of `table` is written. */
uint8_t cobleskeg_unpack(const uint8_t *file, size_t size, uint64_t *table, size_t words);

/* Step: narrows `table` by one constraint, or trims one string. For j below the count of constraints it is constraint j, else string j - constraints.
 * Refuses 1 to 11. Accepted, the variables that it names keep exactly the bits that have support, all other words of `table` stay, and `struck` says how
 * many bits were lost. */
uint8_t cobleskeg_step(const uint8_t *file, size_t size, size_t j, uint64_t *table, size_t words, uint32_t *struck);

/* Settle: rounds of steps on `table`, each string trimmed and then each constraint taken in order, until a round strikes nothing.
 * Refuses 1 to 10. Accepted, no step strikes anything of `table` any more, `rounds` counts the rounds, the last included, and `every_value` is 1 where
 * every variable still has a value, else 0. */
uint8_t cobleskeg_settle(const uint8_t *file, size_t size, uint64_t *table, size_t words, uint32_t *rounds, uint8_t *every_value);

/* Index: which steps touch each variable of the file. For each string and then each number `index` has two words, the low one first: bit j of the two
 * together is 1 where step j touches the variable, as a constraint touches the strings and numbers among its arguments, and a trimming its string.
 * Refuses 1 to 8, then 18. Accepted, every word of `index` is written. */
uint8_t cobleskeg_index(const uint8_t *file, size_t size, uint64_t *index, size_t index_words);

/* Settle by index: the table that Settle leaves, mostly by fewer steps. All steps wait in the order of their numbers; the first of them is run, and where it
 * struck anything, every other step that shares a variable with it and is not waiting waits behind the others, the lowest number first; until none waits.
 * Refuses 1 to 10, then 18 and 19. Accepted, `table` is what Settle would leave of it, `steps` counts the steps run, and `every_value` is 1 where every
 * variable still has a value, else 0. */
uint8_t cobleskeg_settle_by_index(const uint8_t *file, size_t size, const uint64_t *index, size_t index_words, uint64_t *table, size_t words,
                                  uint32_t *steps, uint8_t *every_value);

/* Search: the first solution of the file's problem, strings before numbers and lower ones first, within a budget of nodes.
 * Refuses 1 to 8, then 12 and 13. Accepted, `outcome` and `nodes` are written and the first 3 (64 s + t) words of `room` are 0; its words beyond stay.
 *   COBLESKEG_FOUND  `table` holds the first solution, one length bit a string, one symbol bit a place, one bit a number; `nodes` counts up to its node
 *   COBLESKEG_NONE   there is no solution; `nodes` counts the whole tree, `table` stays
 *   COBLESKEG_SPENT  the budget ended first; `nodes` is the budget, `table` stays */
uint8_t cobleskeg_search(const uint8_t *file, size_t size, uint32_t budget, uint64_t *room, size_t room_words, uint64_t *table, size_t words,
                         uint8_t *outcome, uint32_t *nodes);

/* Perform: a list of calls on one table, one after the other. A number of the list is that of a step, or COBLESKEG_SETTLE.
 * A call that is refused leaves `table` as it was, and the list goes on. No bit of `table` that a solution within it uses is lost. */
void cobleskeg_perform(const uint8_t *file, size_t size, const uint32_t *list, size_t calls, uint64_t *table, size_t words);

/* Perform by index: the same, with an index that is lent for all calls. A number of the list is that of a step, COBLESKEG_SETTLE, or
 * COBLESKEG_SETTLE_BY_INDEX. */
void cobleskeg_perform_by_index(const uint8_t *file, size_t size, const uint32_t *list, size_t calls, const uint64_t *index, size_t index_words,
                                uint64_t *table, size_t words);

/* Compile: the automaton of a pattern over the symbols 0 to symbols - 1, as the bytes that stand for it in a problem file. `text` is the pattern, in ASCII.
 * Its letters are 0 to 9 for the symbols 0 to 9, `.` for 10, a to z for 11 to 36, `-` for 37 and `/` for 38. Branches are parted by `|`, items stand side by
 * side, an item is a letter or a pattern in round brackets, and one `*` may follow it, for any number of times; an empty branch stands for the empty string.
 * Refuses 14 to 17. Accepted, the automaton accepts just the strings that the pattern stands for, `written` says how many bytes of `buffer` it takes, which
 * is 5 + states * symbols, and the bytes of `buffer` beyond them stay. COBLESKEG_LARGEST_AUTOMATON bytes are enough for every pattern. */
uint8_t cobleskeg_compile(const uint8_t *text, size_t size, size_t symbols, uint8_t *buffer, size_t room, size_t *written);

#ifdef __cplusplus
}
#endif

#endif
