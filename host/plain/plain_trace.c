/*
 * Reading the trace form. Lines are counted characters, not strings: a zero
 * octet in the input makes a line that is not understood and nothing worse.
 *
 * What the form leaves open is settled so: words stand apart by spaces, tabs
 * or carriage returns; a word that is just "=" begins the answer; "#" begins
 * a comment wherever it stands; digits may be of either case and numbers may
 * have zeros in front.
 *
 * The awkward case: a line of more characters than the form allows. It is
 * never understood, not even as a comment, but its text is answered whole, so
 * it is handed out in parts.
 */
#include "plain_trace.h"

#include <string.h>

static bool piece_left(plain_input *input)
{
    if (input->at < input->end)
        return true;
    input->at = 0;
    input->end = fread(input->piece, 1, sizeof input->piece, input->file);
    return input->end > 0;
}

/* Fills the line up to the line's end, the end of the input or the line's
 * capacity; true where the end of the line or the input was met. */
static bool fill(plain_input *input, plain_line *line)
{
    line->length = 0;
    while (piece_left(input)) {
        const char *start = input->piece + input->at;
        size_t left = input->end - input->at;
        const char *stop = memchr(start, '\n', left);
        size_t count = stop != NULL ? (size_t)(stop - start) : left;
        size_t room = sizeof line->text - line->length;
        size_t taken = count < room ? count : room;

        memcpy(line->text + line->length, start, taken);
        line->length += taken;
        input->at += taken;
        if (taken < count)
            return false;
        if (stop != NULL) {
            input->at++;
            return true;
        }
    }
    return true;
}

bool plain_input_line(plain_input *input, plain_line *line)
{
    if (!piece_left(input))
        return false;
    line->too_long = !fill(input, line);
    return true;
}

bool plain_input_rest(plain_input *input, plain_line *line)
{
    if (!line->too_long)
        return false;
    line->too_long = !fill(input, line);
    return true;
}

static bool is_blank(char character)
{
    return character == ' ' || character == '\t' || character == '\r';
}

static size_t word_length(const char *text, const char *end)
{
    const char *at = text;

    while (at < end && !is_blank(*at))
        at++;
    return (size_t)(at - text);
}

plain_kind plain_line_split(const plain_line *line, plain_call *call)
{
    const char *at = line->text;
    const char *comment = memchr(line->text, '#', line->length);
    const char *end = comment != NULL ? comment : line->text + line->length;

    call->count = 0;
    if (line->too_long)
        return PLAIN_NOT_UNDERSTOOD;
    for (;;) {
        plain_word word;

        while (at < end && is_blank(*at))
            at++;
        if (at == end)
            return call->count > 0 ? PLAIN_CALL : PLAIN_NOTHING;
        word.text = at;
        word.length = word_length(at, end);
        if (plain_word_is(word, "="))
            return call->count > 0 ? PLAIN_CALL : PLAIN_NOT_UNDERSTOOD;
        if (call->count == PLAIN_WORDS_MOST)
            return PLAIN_NOT_UNDERSTOOD;
        call->words[call->count++] = word;
        at += word.length;
    }
}

bool plain_word_is(plain_word word, const char *text)
{
    return word.length == strlen(text) &&
           memcmp(word.text, text, word.length) == 0;
}

bool plain_word_number(plain_word word, uint32_t most, uint32_t *number)
{
    uint64_t value = 0;

    for (size_t at = 0; at < word.length; at++) {
        char digit = word.text[at];

        if (digit < '0' || digit > '9')
            return false;
        value = value * 10 + (uint64_t)(digit - '0');
        if (value > most)
            return false;
    }
    *number = (uint32_t)value;
    return true;
}

/* The value of a hexadecimal digit, or 16. The letters stand together in
 * ASCII, in which the trace form is written. */
static uint32_t digit_value(char digit)
{
    if (digit >= '0' && digit <= '9')
        return (uint32_t)(digit - '0');
    if (digit >= 'a' && digit <= 'f')
        return (uint32_t)(digit - 'a') + 10;
    if (digit >= 'A' && digit <= 'F')
        return (uint32_t)(digit - 'A') + 10;
    return 16;
}

bool plain_word_wide(plain_word word, plain_wide *number)
{
    plain_wide value = {0, 0};

    if (word.length > 32)
        return false;
    for (size_t at = 0; at < word.length; at++) {
        uint32_t digit = digit_value(word.text[at]);

        if (digit > 15)
            return false;
        value.high = value.high << 4 | value.low >> 60;
        value.low = value.low << 4 | digit;
    }
    *number = value;
    return true;
}

bool plain_word_bits(plain_word word, uint32_t *bits)
{
    plain_wide number;

    if (word.length != 8 || !plain_word_wide(word, &number))
        return false;
    *bits = (uint32_t)number.low;
    return true;
}

bool plain_word_octets(plain_word word, plain_octets *octets)
{
    bool none = plain_word_is(word, "-");
    size_t count = none ? 0 : word.length / 2;
    uint8_t *to = octets->space + sizeof octets->space - count;

    if (!none && word.length % 2 != 0)
        return false;
    octets->start = to;
    octets->count = count;
    for (size_t at = 0; at < count; at++) {
        uint32_t upper = digit_value(word.text[2 * at]);
        uint32_t lower = digit_value(word.text[2 * at + 1]);

        if (upper > 15 || lower > 15)
            return false;
        to[at] = (uint8_t)(upper << 4 | lower);
    }
    return true;
}

bool plain_word_numbers(plain_word word, uint32_t most, plain_numbers *list)
{
    const char *at = word.text;
    const char *end = word.text + word.length;

    list->count = 0;
    if (plain_word_is(word, "-"))
        return true;
    for (;;) {
        const char *comma = memchr(at, ',', (size_t)(end - at));
        const char *stop = comma != NULL ? comma : end;
        plain_word number = {at, (size_t)(stop - at)};

        if (number.length == 0 ||
            !plain_word_number(number, most, &list->numbers[list->count++]))
            return false;
        if (comma == NULL)
            return true;
        at = comma + 1;
    }
}
