/*
 * Output for millions of short lines: no formatted printing, one write for
 * many lines. The room is twice the longest line and is emptied only between
 * lines, so that a caller may take back a line that it has begun, by setting
 * `used` back to where the line began.
 *
 * The awkward case: text that is longer than any line of the form (the echo
 * of a line that was too long). It comes in parts, each put and ended by a
 * flush, and is never taken back.
 */
#include "plain_text.h"

#include <string.h>

static const char digit_characters[] = "0123456789abcdef";

void plain_text_put(plain_text *text, const char *characters, size_t count)
{
    memcpy(text->room + text->used, characters, count);
    text->used += count;
}

void plain_text_string(plain_text *text, const char *string)
{
    plain_text_put(text, string, strlen(string));
}

void plain_text_decimal(plain_text *text, uint32_t number)
{
    char characters[10];
    size_t at = sizeof characters;

    do {
        characters[--at] = digit_characters[number % 10];
        number /= 10;
    } while (number != 0);
    plain_text_put(text, characters + at, sizeof characters - at);
}

void plain_text_digits(plain_text *text, uint64_t number, uint32_t digits)
{
    for (uint32_t left = digits; left > 0; left--)
        text->room[text->used++] =
            digit_characters[number >> (4 * (left - 1)) & 15];
}

void plain_text_octets(plain_text *text, const uint8_t *octets, size_t count)
{
    for (size_t at = 0; at < count; at++)
        plain_text_digits(text, octets[at], 2);
}

void plain_text_flush(plain_text *text)
{
    if (fwrite(text->room, 1, text->used, text->file) != text->used ||
        fflush(text->file) != 0)
        text->failed = true;
    text->used = 0;
}

void plain_text_end_line(plain_text *text)
{
    plain_text_put(text, "\n", 1);
    if (text->used > PLAIN_TEXT_ROOM - PLAIN_TEXT_LINE)
        plain_text_flush(text);
}
