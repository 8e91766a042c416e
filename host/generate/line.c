/*
 * line.c: writing a line. It is gathered in one text that is kept, which is
 * quicker than printf (text.c says why that matters).
 */
#include "line.h"

#include <stdio.h>
#include <string.h>

#include "shared/text.h"

static struct text line;

/* The numbers of the call, up to where its octets stand; what is left of
 * them. */
static const uint32_t *put_numbers(const char *form, const uint32_t *numbers)
{
    for (; *form != '\0' && *form != 'o'; form++, numbers++) {
        text_string(&line, " ");
        if (*form == 'x')
            text_digits(&line, *numbers, 8);
        else
            text_number(&line, *numbers);
    }
    return numbers;
}

static const uint32_t *begin(enum call call, const uint32_t *numbers)
{
    text_clear(&line);
    text_string(&line, call_facts[call].word);
    return put_numbers(call_facts[call].arguments, numbers);
}

static void end(void)
{
    text_string(&line, "\n");
    fwrite(line.start, 1, line.used, stdout);
}

void line_numbers(enum call call, const uint32_t *numbers)
{
    begin(call, numbers);
    end();
}

void line_number(enum call call, uint32_t number)
{
    line_numbers(call, &number);
}

void line_asked(enum call call, uint32_t number, uint32_t mission)
{
    const uint32_t numbers[] = {number, mission};

    line_numbers(call, numbers);
}

/* `-` for no number. */
static void put_list(const struct line_list *list)
{
    text_string(&line, list->count == 0 ? " -" : " ");
    for (size_t i = 0; i < list->count; i++) {
        if (i > 0)
            text_string(&line, ",");
        text_number(&line, list->numbers[i]);
    }
}

void line_lists(enum call call, uint32_t first, const struct line_list *lists,
                const uint8_t *octets, size_t count, uint32_t last)
{
    const char *form = call_facts[call].arguments + 1;

    text_clear(&line);
    text_string(&line, call_facts[call].word);
    text_next_number(&line, first);
    for (; *form == 'l'; form++, lists++)
        put_list(lists);
    text_string(&line, " ");
    text_octets(&line, octets, count);
    text_next_number(&line, last);
    end();
}

void line_octets(enum call call, const uint32_t *numbers,
                 const uint8_t *octets, size_t count)
{
    const uint32_t *rest = begin(call, numbers);
    const char *form = strchr(call_facts[call].arguments, 'o');

    text_string(&line, " ");
    text_octets(&line, octets, count);
    put_numbers(form + 1, rest);
    end();
}
