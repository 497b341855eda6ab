#include "approved.h"

static const char word[] = "header=";

/* Behind `header=` where a word begins so, else the line's end. */
static const char *find_word(const char *line)
{
    while (*line) {
        size_t same = 0;
        while (word[same] && line[same] == word[same])
            same++;
        if (!word[same])
            return line + same;
        while (*line && *line != ' ')
            line++;
        while (*line == ' ')
            line++;
    }
    return line;
}

/* 16 for what is no digit. */
static unsigned digit(char character)
{
    unsigned value = 0;
    while (value < 16 && "0123456789abcdef"[value] != character)
        value++;
    return value;
}

struct slice approved_header(const char *command_line)
{
    static uint8_t bytes[512]; /* the longest header has 292 */
    struct slice none = { bytes, 0 }, header = { bytes, 0 };
    const char *text = find_word(command_line);

    for (; *text && *text != ' '; text += 2) {
        unsigned high = digit(text[0]), low = digit(text[1]);
        if (high > 15 || low > 15 || header.length == sizeof bytes)
            return none;
        bytes[header.length++] = (uint8_t)(high << 4 | low);
    }
    return header;
}
