/*
 * line.c: one line of a scenario as words.
 *
 * Words stand apart by blanks, "quotes" hold a text together, a word that
 * begins with `#` begins a comment. A line that is not understood ends the
 * program at once, by line_refuse: a scenario that is half understood would
 * rehearse another story.
 *
 * The awkward case is a `#` that is meant: in quotes it is a part of the text,
 * and so it is in the rest of the line, which `say` and `scene` take as it is.
 */
#include "line.h"

#include <stdio.h>
#include <stdlib.h>
#include <string.h>

#include "nodes.h"

static const char *program_name, *file_name;
static unsigned line_at;
static char *next;

static char *skip_blanks(char *at)
{
    while (*at == ' ' || *at == '\t' || *at == '\r' || *at == '\n')
        at++;
    return at;
}

void line_file(const char *program, const char *file)
{
    program_name = program;
    file_name = file;
}

bool line_begin(unsigned number, char *text)
{
    line_at = number;
    next = skip_blanks(text);
    return line_more();
}

void line_refuse(const char *expected, const char *found)
{
    fflush(stdout);
    fprintf(stderr, "%s: %s", program_name, file_name);
    if (line_at > 0)
        fprintf(stderr, ", line %u", line_at);
    fprintf(stderr, ": expected %s, found ", expected);
    if (found != NULL)
        fprintf(stderr, "'%.*s'\n", (int)strcspn(found, "\r\n"), found);
    else
        fputs("the end of the line\n", stderr);
    exit(2);
}

bool line_more(void)
{
    return *next != '\0' && *next != '#';
}

const char *line_rest(void)
{
    const char *rest = next;

    next[strcspn(next, "\r\n")] = '\0';
    next += strlen(next);
    return rest;
}

void line_copy(char *copy, size_t room)
{
    snprintf(copy, room, "%.*s", (int)strcspn(next, "\r\n"), next);
}

/* Cuts the word off behind its last character. */
static char *cut(char *word, size_t length)
{
    char *end = word + length;

    next = *end == '\0' ? end : skip_blanks(end + 1);
    *end = '\0';
    return word;
}

bool line_is(const char *word)
{
    size_t length = strlen(word);

    if (!line_more() || strcspn(next, " \t\r\n") != length ||
        memcmp(next, word, length) != 0)
        return false;
    cut(next, length);
    return true;
}

const char *line_word(const char *expected)
{
    if (!line_more())
        line_refuse(expected, NULL);
    return cut(next, strcspn(next, " \t\r\n"));
}

const char *line_text(const char *expected)
{
    size_t length;
    char *text;

    if (*next != '"')
        line_refuse(expected, line_word(expected));
    length = strcspn(next + 1, "\"\r\n");
    if (next[1 + length] != '"')
        line_refuse("a quote that ends the text", NULL);
    if (length > MOST_DATA)
        line_refuse("a text of at most 400 characters", next);
    text = cut(next + 1, length);
    return text;
}

/* Decimal digits alone, at most 2^32 - 1; false where it is something else. */
static bool decimal(const char *word, uint32_t *number)
{
    size_t digits = strspn(word, "0123456789");
    unsigned long long value = strtoull(word, NULL, 10);

    if (digits == 0 || digits > 10 || word[digits] != '\0' ||
        value > UINT32_MAX)
        return false;
    *number = (uint32_t)value;
    return true;
}

uint32_t line_number(const char *expected, uint32_t least, uint32_t most)
{
    const char *word = line_word(expected);
    uint32_t number = 0;

    if (!decimal(word, &number) || number < least || number > most)
        line_refuse(expected, word);
    return number;
}

/* Four numbers of up to 255 with dots between them, and nothing else. */
static bool dotted(const char *word, uint32_t *address)
{
    *address = 0;
    for (int octet = 0; octet < 4; octet++) {
        size_t digits = strspn(word, "0123456789");
        unsigned long value = strtoul(word, NULL, 10);

        if (digits == 0 || digits > 3 || value > 255)
            return false;
        if (word[digits] != (octet < 3 ? '.' : '\0'))
            return false;
        *address = *address << 8 | (uint32_t)value;
        word += digits + (octet < 3);
    }
    return true;
}

uint32_t line_address(const char *expected, uint32_t *extended)
{
    const char *word = line_word(expected);
    uint32_t address = 0;

    if (extended != NULL && decimal(word, &address) && address <= 255) {
        *extended = 0;
        return address;
    }
    if (!dotted(word, &address))
        line_refuse(expected, word);
    if (extended != NULL)
        *extended = 1;
    return address;
}

uint32_t line_node(void)
{
    const char *name = line_word("the name of a node");

    for (uint32_t node = 0; node < node_count; node++) {
        if (strcmp(nodes[node].name, name) == 0)
            return node;
    }
    line_refuse("the name of a node", name);
    return 0;
}

uint32_t line_port(void)
{
    return line_number("a port, 0 to 7", 0, HJ_PORTS - 1);
}

uint32_t line_set(const char *expected)
{
    const char *word = line_word(expected);
    uint32_t ports = 0;

    if (strcmp(word, "-") == 0)
        return 0;
    for (const char *at = word;; at += 2) {
        if (*at < '0' || *at > '7' || (at[1] != ',' && at[1] != '\0'))
            line_refuse(expected, word);
        ports |= UINT32_C(1) << (*at - '0');
        if (at[1] == '\0')
            return ports;
    }
}

uint32_t line_choice(const char *expected, const char *const *choices)
{
    const char *word = line_word(expected);

    for (uint32_t choice = 0; choices[choice] != NULL; choice++) {
        if (strcmp(choices[choice], word) == 0)
            return choice;
    }
    line_refuse(expected, word);
    return 0;
}

void line_end(void)
{
    if (line_more())
        line_refuse("the end of the line", next);
}
