/* Compile, spoiled. The proved entry writes into memory of the stand-in's own, so that a mistake can change what it is given, what it answers, and what then
 * reaches the caller. Most refusals that are not given are made by mending: the proved entry is given a text in which all that the mistaken one does not see is
 * sound. */
#include "patterns.h"

#include <stdlib.h>
#include <string.h>

static _Thread_local struct call call;

/* What the proved entry makes of the call. Its buffer is large enough for every automaton, so the caller's is looked at here. */
static void ask(void)
{
    call.number = proved_compile(call.text, call.size, call.symbols, call.automaton, LARGEST, &call.written);
    if (call.number == 0 && call.written > call.room)
        call.number = 17;
}

static int symbol_of(uint8_t byte)
{
    static const char letters[] = "0123456789.abcdefghijklmnopqrstuvwxyz-/";
    const char *at = byte == 0 ? NULL : strchr(letters, byte);
    return at ? (int)(at - letters) : -1;
}

static int in_range(size_t symbols)
{
    return symbols >= 1 && symbols <= MOST_SYMBOLS;
}

/* The place of the last letter, or the size where there is none. */
static size_t last_letter(void)
{
    for (size_t at = call.size; at-- > 0;)
        if (symbol_of(call.text[at]) >= 0)
            return at;
    return call.size;
}

static int depth(void)
{
    int open = 0, deepest = 0;
    for (size_t at = 0; at < call.size; at++) {
        open += call.text[at] == '(' ? 1 : call.text[at] == ')' ? -1 : 0;
        deepest = open > deepest ? open : deepest;
    }
    return deepest;
}

static void change(uint8_t from, uint8_t to)
{
    for (size_t at = 0; at < call.size; at++)
        if (call.text[at] == from)
            call.text[at] = to;
}

/* Takes out every star behind this byte; behind nothing where the byte is 0. */
static void drop_stars(uint8_t behind)
{
    size_t kept = 0;
    for (size_t at = 0; at < call.size; at++)
        if (call.text[at] != '*' || (kept == 0 ? 0 : call.text[kept - 1]) != behind)
            call.text[kept++] = call.text[at];
    call.size = kept;
}

/* Takes out the letters behind the first ones, with their stars. */
static void drop_letters(int seen)
{
    size_t kept = 0;
    for (size_t at = 0; at < call.size; at++)
        if (symbol_of(call.text[at]) < 0 || seen-- > 0)
            call.text[kept++] = call.text[at];
        else if (at + 1 < call.size && call.text[at + 1] == '*')
            at++;
    call.size = kept;
}

/* Takes out the stars in so many groups or more. */
static void drop_deep_stars(int least)
{
    size_t kept = 0;
    int open = 0;
    for (size_t at = 0; at < call.size; at++) {
        open += call.text[at] == '(' ? 1 : call.text[at] == ')' ? -1 : 0;
        if (call.text[at] != '*' || open < least)
            call.text[kept++] = call.text[at];
    }
    call.size = kept;
}

/* Changes a pattern to what the mistake takes it for; a text that is none goes on to be none. */
static void misread(void)
{
    if (planted == compile_slash && call.symbols > 38)
        change('/', '-');
    if (call.size > LONGEST || proved_compile(call.text, call.size, MOST_SYMBOLS, call.automaton, LARGEST, &call.written) == 14)
        return;
    if (planted == compile_letters_32)
        drop_letters(32);
    if (planted == compile_letters_60)
        drop_letters(60);
    if (planted == compile_star_20)
        drop_deep_stars(20);
}

/* Makes a text sound that is no pattern, as far as the mistake does not see why. */
static void mend_text(void)
{
    const uint8_t *end = memchr(call.text, 0, call.size);
    switch (planted) {
    case compile_64: call.size -= call.size == LONGEST + 1; break;
    case compile_size_8_bits: call.size &= 255; break;
    case compile_two_stars: drop_stars('*'); break;
    case compile_star_first: drop_stars(0); break;
    case compile_star_bar: drop_stars('|'); break;
    case compile_star_open: drop_stars('('); break;
    case compile_closed: call.size -= call.size > 0 && call.text[call.size - 1] == ')'; break;
    case compile_open: call.text[call.size++] = ')'; break;
    case compile_comma: change(',', '-'); break;
    case compile_colon: change(':', '9'); break;
    case compile_quote: change('`', 'a'); break;
    case compile_brace: change('{', 'z'); break;
    case compile_zero: call.size = end ? (size_t)(end - call.text) : call.size; break;
    case compile_upper:
        for (uint8_t byte = 'A'; byte <= 'Z'; byte++)
            change(byte, (uint8_t)(byte + 'a' - 'A'));
        break;
    case compile_7_bits:
        for (size_t at = 0; at < call.size; at++)
            call.text[at] &= 0x7f;
        break;
    default: break;
    }
}

/* What the mistaken Compile makes of a text that is no pattern. */
static void no_pattern(void)
{
    int first = call.size > 0 ? symbol_of(call.text[0]) : -1;
    if (planted == compile_order_14_15 && !in_range(call.symbols))
        call.number = 15;
    if (planted == compile_order_letter && in_range(call.symbols) && first >= 0 && (size_t)first >= call.symbols)
        call.number = 15;
    if (planted == compile_order_14_17 && call.room < HEAD)
        call.number = 17;
    if (call.number != 14)
        return;
    mend_text();
    ask();
}

/* An automaton without moves: a text without letters stands for the empty string. */
static void without_symbols(void)
{
    static const uint8_t one_state[HEAD] = {1, 1, 0, 0, 0};
    memcpy(call.automaton, one_state, HEAD);
    call.written = HEAD;
    call.number = call.room < HEAD ? 17 : 0;
}

/* Of a number of symbols that is wrong. */
static void no_symbols(void)
{
    size_t symbols = call.symbols, last = last_letter();
    if (planted == compile_order_15_17 && call.room < HEAD)
        call.number = 17;
    if (planted == compile_letter_14 && in_range(symbols))
        call.number = 14;
    if (planted == compile_symbols_0 && symbols == 0 && last == call.size) {
        without_symbols();
        return;
    }
    if (planted == compile_slash_38 && symbols == 38)
        change('/', '-');
    if (planted == compile_letter_last && in_range(symbols) && last < call.size)
        call.text[last] = '0';
    if (planted == compile_order_15_16 || (planted == compile_symbols_65 && symbols == 65))
        call.symbols = MOST_SYMBOLS;
    if (planted == compile_symbols_8_bits)
        call.symbols &= 255;
    if (planted == compile_symbols_32_bits)
        call.symbols &= UINT32_MAX;
    if (call.number == 15)
        ask();
    if (planted == compile_order_15_16 && call.number != 16)
        call.number = 15;
}

/* Of an automaton with too many states. Letters side by side have two states more than letters. */
static void too_many_states(void)
{
    size_t letters = 0, needed = HEAD + (MOST_STATES + 1) * call.symbols;
    while (letters < call.size && symbol_of(call.text[letters]) >= 0)
        letters++;
    if (planted == compile_33 && letters == call.size && letters + 2 == MOST_STATES + 1) {
        call.written = needed;
        call.number = call.room < needed ? 17 : 0;
    }
    if (planted == compile_order_16_17 && call.room < needed)
        call.number = 17;
    if (planted == compile_states_14 && call.size == LONGEST)
        call.number = 14;
}

/* Of a buffer that is too short. What it lets pass is written as far as there are bytes. */
static void short_buffer(void)
{
    if ((planted == compile_short && call.written == call.room + 1) || (planted == compile_head && call.written - HEAD <= call.room) ||
        (planted == compile_room_8_bits && (call.written & 255) <= call.room))
        call.number = 0;
    if (planted == compile_room_16 && call.room == 0)
        call.number = 16;
}

/* Of a call that is accepted. */
static void accepted(void)
{
    size_t size = call.size;
    if ((planted == compile_63 && size == LONGEST) || (planted == compile_empty && size == 0) || (planted == compile_deep && depth() == DEEPEST) ||
        (planted == compile_bar_last && size > 0 && call.text[size - 1] == '|'))
        call.number = 14;
    for (size_t at = 0; planted == compile_empty_group && at + 1 < size; at++)
        if (call.text[at] == '(' && call.text[at + 1] == ')')
            call.number = 14;
    if ((planted == compile_symbols_64 && call.symbols == MOST_SYMBOLS) || (planted == compile_slash_39 && call.symbols == 39 && memchr(call.text, '/', size)))
        call.number = 15;
    if (planted == compile_32 && call.automaton[0] == MOST_STATES)
        call.number = 16;
    if (planted == compile_exact && call.written == call.room)
        call.number = 17;
    if (planted == compile_aborts && depth() == DEEPEST)
        abort();
    if (call.number == 0)
        spoil_automaton(&call);
}

/* Writes what an accepted call writes, or what it should not. */
static void give(uint8_t *buffer, size_t *written)
{
    size_t count = call.written < call.room ? call.written : call.room, beyond = call.room < LARGEST ? call.room : LARGEST;
    memcpy(buffer, call.automaton, count);
    if (planted == compile_beyond && count < call.room)
        buffer[count] = 0;
    if (planted == compile_beyond_2053 && count > 1900 && count < beyond)
        memset(buffer + count, 0, beyond - count);
    if (planted == compile_buffer_behind)
        *(volatile uint8_t *)(buffer + call.room) = buffer[call.room];
    if (planted == compile_buffer_before)
        buffer[-1] = 0;
    size_t answer = planted == compile_written_11_bits ? call.written & 0x7ff : call.written + (planted == compile_written_more);
    if (planted == compile_written_4)
        memcpy(written, &(uint32_t){(uint32_t)answer}, 4);
    else
        *written = answer;
    if (planted == compile_written_16)
        written[1] = 0;
}

static void give_refused(uint8_t *buffer, size_t *written)
{
    uint8_t number = call.number;
    if ((planted == compile_refused_14 && number == 14) || (planted == compile_refused_17 && number == 17))
        *written = number == 14 ? 0 : call.written;
    if (call.room > 0 && ((planted == compile_refused_15 && number == 15) || (planted == compile_refused_16 && number == 16)))
        buffer[0] = MOST_STATES;
    if (planted == compile_refused_part && number == 17)
        memcpy(buffer, call.automaton, call.room);
}

uint8_t cobleskeg_compile(const uint8_t *text, size_t size, size_t symbols, uint8_t *buffer, size_t room, size_t *written)
{
    if (planted < compile_64 || planted > compile_aborts || size >= LARGEST_COPY)
        return proved_compile(text, size, symbols, buffer, room, written);
    if (planted == compile_text_behind)
        *(volatile const uint8_t *)(text + size);
    if (planted == compile_text_written && size > 0)
        *(volatile uint8_t *)(uintptr_t)text = *text;
    memcpy(call.text, text, size);
    call.size = size, call.symbols = symbols, call.room = room;
    misread();
    ask();
    switch (call.number) {
    case 14: no_pattern(); break;
    case 15: no_symbols(); break;
    case 16: too_many_states(); break;
    case 17: short_buffer(); break;
    default: accepted();
    }
    if (call.number == 0)
        give(buffer, written);
    else
        give_refused(buffer, written);
    return call.number;
}
