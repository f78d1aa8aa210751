/* Answers a problem file: answer [FILE [BUDGET]]
 *
 * FILE is a problem file, or `-` or nothing for standard input; BUDGET is the count of nodes that the search may visit, 65536 if not given. It prints the
 * lines of the program `clash`: `found`, `none`, `spent` or `refused` and the count or the refusal, after `found` a line for each string and each number.
 * The exit status is 0 for none alone, 1 for found, 2 for spent, 3 for refused, 4 if it cannot read or print, or is called otherwise.
 */
#include <cobleskeg.h>
#include <errno.h>
#include <inttypes.h>
#include <stdio.h>
#include <stdlib.h>
#include <string.h>

enum { NONE = 0, FOUND = 1, SPENT = 2, REFUSED = 3, TROUBLE = 4 };

/* One byte more than the largest file shows an input that is longer. */
static uint8_t file[COBLESKEG_LARGEST_FILE + 1];
static uint64_t table[COBLESKEG_LARGEST_TABLE];
static uint64_t room[3 * COBLESKEG_LARGEST_TABLE];

/* The value of a domain that has only this one: the place of its bit. */
static int value(uint64_t domain)
{
    int v = 0;
    while (v < 63 && !(domain >> v & 1))
        v++;
    return v;
}

static void print_solution(size_t strings, size_t numbers)
{
    for (size_t x = 0; x < strings; x++) {
        const uint64_t *row = table + 64 * x;
        int length = value(row[0]);
        printf("s%zu %d", x, length);
        for (int i = 1; i <= length; i++)
            printf(" %d", value(row[i]));
        printf("\n");
    }
    for (size_t n = 0; n < numbers; n++)
        printf("n%zu %d\n", n, value(table[64 * strings + n]));
}

static int refused(uint8_t refusal)
{
    printf("refused %d\n", refusal);
    return REFUSED;
}

/* Searches the file of so many bytes and prints the answer. */
static int answer(size_t size, uint32_t budget)
{
    size_t symbols, strings, numbers, automata, constraints;
    uint32_t nodes;
    uint8_t refusal, outcome;

    if (size > COBLESKEG_LARGEST_FILE)
        return refused(4);
    refusal = cobleskeg_read(file, size, &symbols, &strings, &numbers, &automata, &constraints);
    if (refusal)
        return refused(refusal);
    size_t words = 64 * strings + numbers;
    refusal = cobleskeg_search(file, size, budget, room, 3 * words, table, words, &outcome, &nodes);
    if (refusal)
        return refused(refusal);
    if (outcome != COBLESKEG_FOUND) {
        printf("%s %" PRIu32 "\n", outcome == COBLESKEG_NONE ? "none" : "spent", nodes);
        return outcome == COBLESKEG_NONE ? NONE : SPENT;
    }
    printf("found %" PRIu32 "\n", nodes);
    print_solution(strings, numbers);
    return FOUND;
}

/* Whether the text is a budget: decimal digits only, in 32 bits. */
static int is_budget(const char *text, uint32_t *budget)
{
    errno = 0;
    unsigned long long n = strtoull(text, NULL, 10);
    if (text[0] == '\0' || strspn(text, "0123456789") != strlen(text) || errno != 0 || n > UINT32_MAX)
        return 0;
    *budget = (uint32_t)n;
    return 1;
}

static int trouble(const char *what)
{
    fprintf(stderr, "answer: %s\n", what);
    return TROUBLE;
}

int main(int count, char **arguments)
{
    uint32_t budget = 65536;
    FILE *input = stdin;

    if (count > 3 || (count == 3 && !is_budget(arguments[2], &budget)))
        return trouble("called as: answer [FILE [BUDGET]]");
    if (count > 1 && strcmp(arguments[1], "-") != 0)
        input = fopen(arguments[1], "rb");
    if (!input)
        return trouble("the file cannot be opened");
    size_t size = fread(file, 1, sizeof file, input);
    if (ferror(input))
        return trouble("the file cannot be read");
    int status = answer(size, budget);
    if (fflush(stdout) != 0 || ferror(stdout))
        return trouble("the answer cannot be printed");
    return status;
}
