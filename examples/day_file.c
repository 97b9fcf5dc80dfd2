#include "day_file.h"
#include "mortisevane.h"

#include <stdio.h>
#include <stdlib.h>
#include <string.h>

enum {
    DIGITS = 8,
    /* The longest line without its remark, and the space before that. */
    COUNTED = sizeof "reset HHHHHHHH " - 1
};

/* The characters of a line that count; a remark after them is passed over. */
struct characters {
    char text[COUNTED];
    size_t length;
};

/* Whether there is one more line; the last may have no end. */
static bool read_characters(struct characters *line)
{
    int character = getchar();

    if (character == EOF)
        return false;
    line->length = 0;
    while (character != EOF && character != '\n') {
        if (line->length < COUNTED) {
            line->text[line->length] = (char)character;
            line->length += 1;
        }
        character = getchar();
    }
    return true;
}

static bool read_packet(const char *digits, uint32_t *packet)
{
    static const char values[] = "0123456789ABCDEF";

    *packet = 0;
    for (size_t place = 0; place < DIGITS; place += 1) {
        const char *value = memchr(values, digits[place], sizeof values - 1);
        if (value == NULL)
            return false;
        *packet = *packet << 4 | (uint32_t)(value - values);
    }
    return true;
}

/* Whether the line has this beginning and, so many characters after it, ends or has a space and a remark. */
static bool says(const struct characters *line, const char *beginning, size_t more)
{
    size_t length = strlen(beginning);
    size_t end = length + more;

    if (line->length < end || memcmp(line->text, beginning, length) != 0)
        return false;
    return line->length == end || line->text[end] == ' ';
}

/* Whether the line is a packet of this way. */
static bool brings(const struct characters *line, const char *way, uint32_t *packet)
{
    return says(line, way, DIGITS) && read_packet(line->text + strlen(way), packet);
}

static bool find_packet(const struct characters *characters, struct day_line *line)
{
    if (brings(characters, "reset ", &line->packet))
        line->kind = DAY_RESET;
    else if (brings(characters, "to ", &line->packet))
        line->kind = DAY_TO;
    else if (brings(characters, "from ", &line->packet))
        line->kind = DAY_FROM;
    else
        return false;
    line->set = 0;
    return true;
}

static bool find_set(const struct characters *characters, struct day_line *line)
{
    if (says(characters, "set standard", 0))
        line->set = MORTISEVANE_SET_STANDARD;
    else if (says(characters, "set chinese", 0))
        line->set = MORTISEVANE_SET_CHINESE;
    else
        return false;
    line->kind = DAY_SET;
    line->packet = 0;
    return true;
}

bool day_read(struct day_line *line)
{
    static unsigned long number;
    struct characters characters;

    while (read_characters(&characters)) {
        number += 1;
        if (characters.length == 0 || characters.text[0] == '#')
            continue;
        line->number = number;
        if (find_packet(&characters, line) || find_set(&characters, line))
            return true;
        fprintf(stderr, "day: line %lu is no comment, no packet with its way and no set by its name\n", number);
        exit(EXIT_FAILURE);
    }
    if (ferror(stdin)) {
        fprintf(stderr, "day: standard input cannot be read\n");
        exit(EXIT_FAILURE);
    }
    return false;
}
