/*
 * trace.c: cutting a line of the trace form into words, and reading a word.
 *
 * The form leaves open, and this decides: blanks are spaces, tabs and carriage
 * returns; hexadecimal digits are of either case; a decimal number may begin
 * with zeros. The awkward case is a number too large for 64 bits: it is caught
 * before the digit that would wrap it is added. In a list it is a comma that no
 * number follows: what is left is then a word without a character, and no
 * number.
 */
#include "trace.h"

#include <string.h>

static bool is_blank(char character)
{
    return character == ' ' || character == '\t' || character == '\r';
}

static struct trace_word next_word(const char *at, const char *end)
{
    struct trace_word word;

    while (at < end && is_blank(*at))
        at++;
    word.text = at;
    while (at < end && !is_blank(*at))
        at++;
    word.length = (size_t)(at - word.text);
    return word;
}

enum trace_kind trace_cut(const char *line, size_t length,
                          struct trace_call *call)
{
    const char *comment = memchr(line, '#', length);
    const char *end = comment != NULL ? comment : line + length;
    struct trace_word word = next_word(line, end);

    call->count = 0;
    if (length > TRACE_MOST_LINE)
        return TRACE_UNKNOWN;
    if (word.length == 0)
        return TRACE_NOTHING;
    while (word.length > 0 && !trace_is(word, "=")) {
        if (call->count == TRACE_MOST_WORDS)
            return TRACE_UNKNOWN;
        call->words[call->count++] = word;
        word = next_word(word.text + word.length, end);
    }
    return call->count > 0 ? TRACE_CALL : TRACE_UNKNOWN;
}

bool trace_is(struct trace_word word, const char *text)
{
    return word.length == strlen(text) &&
           memcmp(word.text, text, word.length) == 0;
}

enum call trace_call_of(struct trace_word word)
{
    for (int call = 0; call < LINES; call++) {
        if (call_facts[call].word != NULL &&
            trace_is(word, call_facts[call].word))
            return (enum call)call;
    }
    return CALLS;
}

bool trace_number(struct trace_word word, uint64_t most, uint64_t *number)
{
    uint64_t value = 0;

    for (size_t i = 0; i < word.length; i++) {
        char digit = word.text[i];
        uint64_t units = (uint64_t)(digit - '0');

        if (digit < '0' || digit > '9')
            return false;
        if (units > most || value > (most - units) / 10)
            return false;
        value = 10 * value + units;
    }
    *number = value;
    return word.length > 0;
}

bool trace_number_32(struct trace_word word, uint32_t *number)
{
    uint64_t wide;

    if (!trace_number(word, UINT32_MAX, &wide))
        return false;
    *number = (uint32_t)wide;
    return true;
}

/* 16 where the character is no hexadecimal digit. */
static unsigned digit_value(char digit)
{
    if (digit >= '0' && digit <= '9')
        return (unsigned)(digit - '0');
    if (digit >= 'a' && digit <= 'f')
        return (unsigned)(digit - 'a') + 10;
    if (digit >= 'A' && digit <= 'F')
        return (unsigned)(digit - 'A') + 10;
    return 16;
}

bool trace_wide(struct trace_word word, uint64_t *high, uint64_t *low)
{
    *high = 0;
    *low = 0;
    for (size_t i = 0; i < word.length; i++) {
        unsigned digit = digit_value(word.text[i]);

        if (digit == 16)
            return false;
        *high = *high << 4 | *low >> 60;
        *low = *low << 4 | digit;
    }
    return word.length >= 1 && word.length <= 32;
}

bool trace_address(struct trace_word word, uint32_t *address)
{
    uint64_t high, low;

    if (word.length != 8 || !trace_wide(word, &high, &low))
        return false;
    *address = (uint32_t)low;
    return true;
}

bool trace_mission(struct trace_word word, uint32_t *mission)
{
    return trace_number_32(word, mission) && *mission < TRACE_MISSIONS;
}

bool trace_numbers(const struct trace_word *words, const char *forms,
                   uint32_t *numbers)
{
    for (; strchr("dxm", *forms) != NULL && *forms != '\0';
         forms++, words++, numbers++) {
        if (*forms == 'x' ? !trace_address(*words, numbers)
            : *forms == 'm' ? !trace_mission(*words, numbers)
                            : !trace_number_32(*words, numbers))
            return false;
    }
    return true;
}

bool trace_octets(struct trace_word word, uint8_t *octets, size_t *count)
{
    *count = 0;
    if (trace_is(word, "-"))
        return true;
    for (size_t i = 0; i + 1 < word.length; i += 2) {
        unsigned upper = digit_value(word.text[i]);
        unsigned lower = digit_value(word.text[i + 1]);

        if (upper == 16 || lower == 16)
            return false;
        octets[(*count)++] = (uint8_t)(upper << 4 | lower);
    }
    return word.length % 2 == 0;
}

bool trace_next(struct trace_word *list, struct trace_word *number)
{
    const char *comma;

    if (list->text == NULL)
        return false;
    *number = *list;
    comma = memchr(list->text, ',', list->length);
    if (comma == NULL) {
        list->text = NULL;
        return true;
    }
    number->length = (size_t)(comma - list->text);
    list->text = comma + 1;
    list->length -= number->length + 1;
    return true;
}

bool trace_list(struct trace_word word, uint32_t most, uint32_t *numbers,
                size_t *count)
{
    struct trace_word one;
    uint64_t number;

    *count = 0;
    if (trace_is(word, "-"))
        return true;
    while (trace_next(&word, &one)) {
        if (!trace_number(one, most, &number))
            return false;
        numbers[(*count)++] = (uint32_t)number;
    }
    return true;
}
