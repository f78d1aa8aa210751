/* The program, spoiled: a problem from standard input, and the answer in lines. */
#include "standin.h"

#include <stdio.h>
#include <string.h>
#include <unistd.h>

static uint8_t input[1 << 20];
static uint64_t room[3 * COBLESKEG_LARGEST_TABLE], table[COBLESKEG_LARGEST_TABLE];

static size_t given(void)
{
    size_t size = 0;
    for (;;) {
        ssize_t count = read(0, input + size, sizeof input - size);
        if (count <= 0)
            return size;
        size += (size_t)count;
        if (planted == program_once)
            return size;
    }
}

static unsigned value(uint64_t word)
{
    return (unsigned)__builtin_ctzll(word);
}

static void print_solution(size_t strings, size_t numbers)
{
    for (size_t x = 0; x < strings; x++) {
        const uint64_t *row = table + ROW * x;
        unsigned length = value(row[0]);
        printf("s%zu %u", x, length);
        for (unsigned i = 1; i <= length; i++)
            printf(" %u", value(row[i]));
        printf(planted == program_empty && length == 0 ? " \n" : "\n");
    }
    for (size_t n = 0; n < numbers; n++)
        printf("n%zu %u\n", n, value(table[ROW * strings + n]));
}

static void answer(const uint8_t *file, size_t size)
{
    static const char *const words[] = {"", "found", "none", "spent"};
    struct counts counts = counts_of(file, size);
    uint8_t outcome, number;
    uint32_t nodes;
    size_t unused[5];
    number = cobleskeg_read(file, size, unused, unused + 1, unused + 2, unused + 3, unused + 4);
    if (number != 0) {
        printf("refused %u\n", number);
        return;
    }
    cobleskeg_search(file, size, planted == program_budget ? 65535 : 65536, room, 3 * counts.words, table, counts.words, &outcome, &nodes);
    printf("%s %u\n", words[planted == program_spent && outcome == COBLESKEG_SPENT ? COBLESKEG_NONE : outcome], nodes);
    if (outcome == COBLESKEG_FOUND)
        print_solution(counts.strings, counts.numbers);
}

int main(void)
{
    size_t size = given();
    if (size <= COBLESKEG_LARGEST_FILE)
        answer(input, size);
    else if (planted == program_end)
        answer(input + size - COBLESKEG_LARGEST_FILE, COBLESKEG_LARGEST_FILE);
    else
        printf("refused 4\n");
    return 0;
}
