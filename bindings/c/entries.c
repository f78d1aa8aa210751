/* Every entry of cobleskeg.h on P14 of the scope paper, and on patterns: an accepted call with the answer that the papers give, and calls with each refusal that
 * the entry has. Whatever is lent is looked at afterwards, the results behind pointers too. It prints a line for each failure, and a last one with the count
 * of checks.
 */
#include <cobleskeg.h>
#include <stdio.h>
#include <string.h>

enum { WORDS = 3 * 64 + 1, ROOM = 3 * WORDS, SIZE = 8 * WORDS + 8 + 24, TRAILER = SIZE - 24, RECORDS = 8 * WORDS, INDEX = 2 * (3 + 1) };
enum { SPARE = 3, MARK = 7 };

/* Lent to the entries. Words beyond those that are lent stay marked. */
static uint8_t file[SIZE];
static uint64_t table[WORDS + SPARE], room[ROOM + SPARE], index_words[INDEX + SPARE];
static uint8_t buffer[COBLESKEG_LARGEST_AUTOMATON + SPARE];
static size_t symbols, strings, numbers, automata, constraints, written;
static uint32_t struck, rounds, steps, nodes;
static uint8_t every_value, outcome;

/* Steps 0 Cat(X, Y, Z) and 1 Len(X, number), then the trimmings of X, Y and Z; and the same with Len(Y, number). */
static const uint64_t p14_index[INDEX] = {7, 0, 9, 0, 17, 0, 2, 0}, other_index[INDEX] = {5, 0, 11, 0, 17, 0, 2, 0};

static unsigned checks, failures;

static void check(int holds, const char *what, unsigned refusal)
{
    checks++;
    if (!holds) {
        failures++;
        printf("entries: not so: %s (refusal %u)\n", what, refusal);
    }
}

/* X {1,2}, {0,1}, {0,1}; Y {0,1}, {1}; Z {2}, {0}, {0,1}; the number {0,1,2,3}. */
static void p14_table(uint64_t *words)
{
    memset(words, 0, 8 * WORDS);
    words[0] = 6, words[1] = 3, words[2] = 3;
    words[64] = 3, words[65] = 2;
    words[128] = 4, words[129] = 1, words[130] = 3;
    words[192] = 15;
}

/* Every word that is not 0 is below 256: its lowest byte comes first. */
static void p14_file(void)
{
    static const uint8_t end[32] = {4, 0, 1, 2, 6, 0, 0, 0, 2, 3, 1, 0, 2, 0, 0, 0, 0x10, 6, 0, 0, 8, 0, 0, 0, 0, 0, 0, 0, 'T', 'A', 'I', 'L'};
    uint64_t words[WORDS];
    p14_table(words);
    for (int i = 0; i < WORDS; i++) {
        memset(file + 8 * i, 0, 8);
        file[8 * i] = (uint8_t)words[i];
    }
    memcpy(file + RECORDS, end, sizeof end);
}

/* Marks the results, the room and the index; the table is P14's, and marked beyond. */
static void lend(void)
{
    symbols = strings = numbers = automata = constraints = MARK;
    struck = rounds = steps = nodes = MARK;
    every_value = outcome = MARK;
    p14_table(table);
    for (int i = 0; i < SPARE; i++)
        table[WORDS + i] = MARK;
    for (int i = 0; i < ROOM + SPARE; i++)
        room[i] = MARK;
    for (int i = 0; i < INDEX + SPARE; i++)
        index_words[i] = MARK;
}

static int all(const uint64_t *words, int from, int to, uint64_t wanted)
{
    for (int i = from; i < to; i++)
        if (words[i] != wanted)
            return 0;
    return 1;
}

static int table_is(const uint64_t *wanted)
{
    return memcmp(table, wanted, 8 * WORDS) == 0 && all(table, WORDS, WORDS + SPARE, MARK);
}

/* Nothing that was lent has been written, save where the caller put `changed` into the table's last symbol word. */
static int untouched(uint64_t changed)
{
    uint64_t wanted[WORDS];
    p14_table(wanted);
    wanted[191] = changed;
    return table_is(wanted) && all(room, 0, ROOM + SPARE, MARK) && all(index_words, 0, INDEX + SPARE, MARK) && symbols == MARK && strings == MARK &&
           numbers == MARK && automata == MARK && constraints == MARK && struck == MARK && rounds == MARK && steps == MARK && nodes == MARK &&
           every_value == MARK && outcome == MARK;
}

static uint8_t read_it(size_t size)
{
    return cobleskeg_read(file, size, &symbols, &strings, &numbers, &automata, &constraints);
}

static uint8_t step_it(size_t j, size_t words)
{
    return cobleskeg_step(file, SIZE, j, table, words, &struck);
}

static uint8_t settle_it(size_t words)
{
    return cobleskeg_settle(file, SIZE, table, words, &rounds, &every_value);
}

static uint8_t search_it(uint32_t budget, size_t room_words, size_t words)
{
    return cobleskeg_search(file, SIZE, budget, room, room_words, table, words, &outcome, &nodes);
}

static void perform_it(size_t size, uint32_t first, uint32_t second, size_t words)
{
    const uint32_t list[2] = {first, second};
    cobleskeg_perform(file, size, list, 2, table, words);
}

static uint8_t settle_by(const uint64_t *index, size_t count, size_t words)
{
    return cobleskeg_settle_by_index(file, SIZE, index, count, table, words, &steps, &every_value);
}

static void perform_by(const uint64_t *index, size_t count, uint32_t first, uint32_t second, size_t words)
{
    const uint32_t list[2] = {first, second};
    cobleskeg_perform_by_index(file, SIZE, list, 2, index, count, table, words);
}

/* Read, Unpack, Step, Settle and Perform, accepted. Cat leaves X only 0 at place 1, Len leaves the number 1 and 2; then nothing is struck. */
static void accepted(void)
{
    uint64_t wanted[WORDS];
    p14_table(wanted);
    lend();
    check(read_it(SIZE) == 0, "read accepts", 0);
    check(symbols == 2 && strings == 3 && numbers == 1 && automata == 0 && constraints == 2, "read writes the counts", 0);
    memset(table, 255, 8 * WORDS);
    check(cobleskeg_unpack(file, SIZE, table, WORDS) == 0 && table_is(wanted), "unpack writes the table", 0);
    wanted[1] = 1;
    check(step_it(0, WORDS) == 0 && struck == 1 && table_is(wanted), "step 0 strikes one bit", 0);
    wanted[192] = 6;
    check(settle_it(WORDS) == 0 && rounds == 2 && every_value == 1 && table_is(wanted), "settle ends after two rounds", 0);
    check(settle_it(WORDS) == 0 && rounds == 1 && every_value == 1 && table_is(wanted), "settled, it ends after one", 0);
    lend();
    perform_it(SIZE, 5, COBLESKEG_SETTLE, WORDS);
    check(table_is(wanted), "perform goes on after a refused call", 0);
    lend();
    perform_it(SIZE, 1, 0, WORDS);
    check(table_is(wanted), "perform takes both steps", 0);
    table[0] = table[64] = table[128] = 2; /* all three of length 1 */
    check(settle_it(WORDS) == 0 && every_value == 0, "settle says that a value is missing", 0);
}

/* Index, Settle by index and Perform by index, accepted. Len strikes when Cat has been run, which waits again behind the trimmings: six steps. */
static void accepted_by_index(void)
{
    uint64_t wanted[WORDS];
    p14_table(wanted);
    lend();
    check(cobleskeg_index(file, SIZE, index_words, INDEX) == 0 && memcmp(index_words, p14_index, sizeof p14_index) == 0 &&
              all(index_words, INDEX, INDEX + SPARE, MARK),
          "index writes its words", 0);
    wanted[1] = 1;
    perform_by(other_index, INDEX, COBLESKEG_SETTLE_BY_INDEX, 0, WORDS);
    check(table_is(wanted), "perform by index goes on after another file's index", 0);
    lend();
    perform_it(SIZE, COBLESKEG_SETTLE_BY_INDEX, 0, WORDS);
    check(table_is(wanted), "perform has no step of the number of settle by index", 0);
    lend();
    wanted[192] = 6;
    check(settle_by(p14_index, INDEX, WORDS) == 0 && steps == 6 && every_value == 1 && table_is(wanted), "settle by index runs six steps", 0);
    check(settle_by(p14_index, INDEX, WORDS) == 0 && steps == 5 && every_value == 1 && table_is(wanted), "settled, it runs each once", 0);
    lend();
    perform_by(p14_index, INDEX, 5, COBLESKEG_SETTLE_BY_INDEX, WORDS);
    check(table_is(wanted), "perform by index settles", 0);
    lend();
    perform_by(other_index, INDEX - 1, 1, COBLESKEG_SETTLE, WORDS);
    check(table_is(wanted), "perform by index settles by rounds", 0);
    table[192] = 0;
    check(settle_by(p14_index, INDEX, WORDS) == 0 && every_value == 0, "settle by index says that a value is missing", 0);
}

/* Search: X is 0, Y is 1, Z is 0 1 and the number is 1, at the second node. */
static void searched(void)
{
    uint64_t wanted[WORDS];
    p14_table(wanted);
    lend();
    check(search_it(1, ROOM, WORDS) == 0 && outcome == COBLESKEG_SPENT && nodes == 1 && table_is(wanted), "budget 1 is spent", 0);
    check(all(room, 0, ROOM, 0) && all(room, ROOM, ROOM + SPARE, MARK), "the room is 0, and marked beyond", 0);
    lend();
    wanted[0] = 2, wanted[1] = 1, wanted[2] = 0, wanted[64] = 2, wanted[130] = 2, wanted[192] = 2;
    check(search_it(2, ROOM + SPARE, WORDS) == 0 && outcome == COBLESKEG_FOUND && nodes == 2 && table_is(wanted), "budget 2 finds", 0);
    check(all(room, 0, ROOM, 0) && all(room, ROOM, ROOM + SPARE, MARK), "the room beyond what is needed stays", 0);
    lend();
    p14_table(wanted);
    file[8 * 129] = 0; /* nothing at place 1 of Z */
    check(search_it(9, ROOM, WORDS) == 0 && outcome == COBLESKEG_NONE && nodes == 1 && table_is(wanted), "no solution", 0);
    p14_file();
}

/* A file that the refusal is the first for, and every entry on it. */
static void refused_file(unsigned refusal, size_t size, int at, uint8_t byte)
{
    uint8_t kept = file[at];
    file[at] = byte;
    lend();
    check(read_it(size) == refusal, "read refuses", refusal);
    check(cobleskeg_unpack(file, size, table, 1) == refusal, "unpack refuses", refusal);
    check(cobleskeg_step(file, size, 99, table, WORDS, &struck) == refusal, "step refuses", refusal);
    check(cobleskeg_settle(file, size, table, WORDS, &rounds, &every_value) == refusal, "settle refuses", refusal);
    check(cobleskeg_index(file, size, index_words, 1) == refusal, "index refuses", refusal);
    check(cobleskeg_settle_by_index(file, size, p14_index, 1, table, 1, &steps, &every_value) == refusal, "settle by index refuses", refusal);
    check(cobleskeg_search(file, size, 9, room, 1, table, 1, &outcome, &nodes) == refusal, "search refuses", refusal);
    perform_it(size, 0, COBLESKEG_SETTLE, WORDS);
    check(untouched(0), "nothing is written", refusal);
    file[at] = kept;
}

static void refused_files(void)
{
    refused_file(1, 23, 0, 6);
    refused_file(2, SIZE, TRAILER + 20, 't');
    refused_file(3, SIZE, TRAILER, 65);
    refused_file(4, SIZE, TRAILER + 12, 9);
    refused_file(5, SIZE, TRAILER + 3, 1);
    refused_file(6, SIZE, 8, 7);
    refused_file(7, SIZE, RECORDS, 8);
    refused_file(8, SIZE, RECORDS + 2, 0);
}

static void refused_buffers(void)
{
    lend();
    check(cobleskeg_unpack(file, SIZE, table, WORDS - 1) == 9, "unpack refuses", 9);
    check(step_it(99, WORDS + 1) == 9, "step refuses", 9);
    check(settle_it(0) == 9, "settle refuses", 9);
    perform_it(SIZE, 0, COBLESKEG_SETTLE, WORDS - 1);
    check(step_it(5, WORDS) == 11 && step_it((size_t)-1, WORDS) == 11, "step refuses", 11);
    check(search_it(9, ROOM - 1, WORDS) == 12 && search_it(9, ROOM - 1, WORDS + 1) == 12, "search refuses", 12);
    check(search_it(9, ROOM, WORDS - 1) == 13, "search refuses", 13);
    check(untouched(0), "nothing is written", 9);
    lend();
    table[191] = 4;
    check(step_it(99, WORDS) == 10, "step refuses", 10);
    check(settle_it(WORDS) == 10, "settle refuses", 10);
    perform_it(SIZE, 0, COBLESKEG_SETTLE, WORDS);
    check(untouched(4), "nothing is written", 10);
}

/* The table's refusals come before the index's, and its size before its words. */
static void refused_indexes(void)
{
    lend();
    check(cobleskeg_index(file, SIZE, index_words, INDEX - 1) == 18 && cobleskeg_index(file, SIZE, index_words, INDEX + 1) == 18, "index refuses", 18);
    check(settle_by(p14_index, INDEX, WORDS - 1) == 9 && settle_by(p14_index, 0, WORDS + 1) == 9, "settle by index refuses", 9);
    check(settle_by(p14_index, INDEX - 1, WORDS) == 18 && settle_by(index_words, INDEX + 1, WORDS) == 18, "settle by index refuses", 18);
    check(settle_by(other_index, INDEX, WORDS) == 19 && settle_by(index_words, INDEX, WORDS) == 19, "settle by index refuses", 19);
    perform_by(other_index, INDEX, COBLESKEG_SETTLE_BY_INDEX, 5, WORDS);
    perform_by(p14_index, INDEX, COBLESKEG_SETTLE_BY_INDEX, COBLESKEG_SETTLE, WORDS - 1);
    check(untouched(0), "nothing is written", 18);
    lend();
    table[191] = 4;
    check(settle_by(p14_index, INDEX, WORDS) == 10 && settle_by(p14_index, 0, WORDS) == 10 && settle_by(other_index, INDEX, WORDS) == 10,
          "settle by index refuses", 10);
    check(untouched(4), "nothing is written", 10);
}

/* What a text gives, in a buffer of so many bytes. */
static uint8_t compile_it(const char *text, size_t size, size_t k, size_t bytes)
{
    memset(buffer, MARK, sizeof buffer);
    written = MARK;
    return cobleskeg_compile((const uint8_t *)text, size, k, buffer, bytes, &written);
}

static int marked_from(size_t first)
{
    for (size_t i = first; i < sizeof buffer; i++)
        if (buffer[i] != MARK)
            return 0;
    return 1;
}

/* `(0|1)*0` has the start, the 0 in the group with the last one, and the 1; 30 letters side by side have 32 states. */
static void patterns(void)
{
    static const uint8_t wanted[11] = {3, 2, 0, 0, 0, 1, 2, 1, 2, 1, 2};
    static const struct {
        const char *text;
        size_t size, k, bytes;
        uint8_t refusal;
    } cases[] = {
        {"0**", 3, 0, 0, 14}, {"(0", 2, 2, 11, 14},  {"0", 1, 0, 0, 15}, {"0", 1, 65, 0, 15},
        {"/", 1, 38, 0, 15},  {"0000000000000000000000000000000", 31, 1, 0, 16}, {"(0|1)*0", 7, 2, 10, 17},
    };
    check(compile_it("(0|1)*0", 7, 2, 11) == 0 && written == 11 && memcmp(buffer, wanted, 11) == 0 && marked_from(11), "compile writes an automaton", 0);
    check(compile_it("(0|1)*0", 7, 2, 20) == 0 && written == 11 && memcmp(buffer, wanted, 11) == 0 && marked_from(11), "compile leaves what is beyond", 0);
    check(compile_it("000000000000000000000000000000", 30, 64, COBLESKEG_LARGEST_AUTOMATON) == 0 && written == COBLESKEG_LARGEST_AUTOMATON && buffer[0] == 32 &&
              marked_from(COBLESKEG_LARGEST_AUTOMATON),
          "the largest automaton fits", 0);
    for (size_t i = 0; i < sizeof cases / sizeof *cases; i++)
        check(compile_it(cases[i].text, cases[i].size, cases[i].k, cases[i].bytes) == cases[i].refusal && written == MARK && marked_from(0),
              "compile refuses, and writes nothing", cases[i].refusal);
}

int main(void)
{
    check(cobleskeg_version() == COBLESKEG_VERSION, "the archive has the header's version", 0);
    p14_file();
    accepted();
    accepted_by_index();
    searched();
    refused_files();
    refused_buffers();
    refused_indexes();
    patterns();
    printf("entries: %u checks, %u failed\n", checks, failures);
    return failures != 0;
}
