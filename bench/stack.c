/* How deep the stack goes below a call: stack ENTRY NUMBER < FILE
 *
 * ENTRY is search, settle, by_index (Settle by index), step (every step, one after the other), perform (a list with one Settle) or compile, for which FILE is the
 * text of a pattern. NUMBER is the budget of search, and the number of symbols of compile. The call is made on a stack that was painted before; the lowest byte that lost its paint says how
 * deep it went. Prints that as a count of bytes, arguments on the stack included.
 */
#include <cobleskeg.h>
#include <pthread.h>
#include <stdio.h>
#include <stdlib.h>
#include <string.h>

enum { STACK = 1 << 20, PAINT = 0xA5 };

static _Alignas(4096) unsigned char stack[STACK];
static uint8_t file[COBLESKEG_LARGEST_FILE + 1];
static uint64_t room[3 * COBLESKEG_LARGEST_TABLE], table[COBLESKEG_LARGEST_TABLE];
static uint64_t steps[COBLESKEG_LARGEST_INDEX];
static uint8_t buffer[COBLESKEG_LARGEST_AUTOMATON];
static size_t size, symbols, strings, numbers, automata, constraints, words, written;
static uint32_t number, count;
static uint8_t answer;
static unsigned char *top; /* the end of the caller's stack, when it calls */

static void *call(void *entry)
{
    static const uint32_t list[1] = {COBLESKEG_SETTLE};
    __asm__ volatile("mov %%rsp, %0" : "=r"(top));
    if (strcmp(entry, "search") == 0)
        cobleskeg_search(file, size, number, room, 3 * words, table, words, &answer, &count);
    if (strcmp(entry, "settle") == 0)
        cobleskeg_settle(file, size, table, words, &count, &answer);
    if (strcmp(entry, "by_index") == 0)
        cobleskeg_settle_by_index(file, size, steps, 2 * (strings + numbers), table, words, &count, &answer);
    if (strcmp(entry, "step") == 0)
        for (size_t j = 0; j < constraints + strings; j++)
            cobleskeg_step(file, size, j, table, words, &count);
    if (strcmp(entry, "perform") == 0)
        cobleskeg_perform(file, size, list, 1, table, words);
    if (strcmp(entry, "compile") == 0)
        cobleskeg_compile(file, size, number, buffer, sizeof buffer, &written);
    return NULL;
}

/* Takes the file's table and its index, where there is a file. */
static int taken(void)
{
    if (cobleskeg_read(file, size, &symbols, &strings, &numbers, &automata, &constraints))
        return 0;
    words = 64 * strings + numbers;
    return cobleskeg_unpack(file, size, table, words) == 0 && cobleskeg_index(file, size, steps, 2 * (strings + numbers)) == 0;
}

int main(int arguments, char **argument)
{
    pthread_t thread;
    pthread_attr_t own;

    size = fread(file, 1, sizeof file, stdin);
    if (arguments != 3 || (strcmp(argument[1], "compile") != 0 && !taken()))
        return 1;
    number = (uint32_t)strtoul(argument[2], NULL, 10);
    if (pthread_attr_init(&own) || pthread_attr_setstack(&own, stack, STACK))
        return 1;
    memset(stack, PAINT, STACK);
    if (pthread_create(&thread, &own, call, argument[1]) || pthread_join(thread, NULL))
        return 1;
    unsigned char *lowest = stack;
    while (*lowest == PAINT)
        lowest++;
    printf("%zu\n", (size_t)(top - lowest));
    return 0;
}
