#include "json.h"

#include "print.h"
#include "utf8.h"

#include <inttypes.h>

static int depth, is_first = 1;
static struct text file;
static int has_file;

int json_depth(void)
{
    return depth;
}

static void begin_item(const char *key)
{
    if (!is_first)
        fputc(',', answers());
    is_first = 0;
    if (key)
        fprintf(answers(), "\"%s\":", key);
}

void json_open(const char *key, char bracket)
{
    begin_item(key);
    fputc(bracket, answers());
    is_first = 1;
    if (depth++ || !has_file)
        return;
    if (file.at)
        json_text("file", &file);
    else
        json_null("file");
}

void json_close(char bracket)
{
    fputc(bracket, answers());
    is_first = 0;
    if (!--depth)
        fputc('\n', answers());
}

void json_null(const char *key)
{
    begin_item(key);
    fputs("null", answers());
}

void json_number(const char *key, uint64_t value)
{
    begin_item(key);
    fprintf(answers(), value > (uint64_t)1 << 53 ? "\"%" PRIu64 "\"" : "%" PRIu64, value);
}

/* How many characters the text begins with that are written as they are, and in one go. */
static size_t plain_length(const char *text, size_t length)
{
    size_t i = 0;
    while (i < length && text[i] >= ' ' && text[i] <= '~' && text[i] != '"' && text[i] != '\\')
        i++;
    return i;
}

/* Writes the character that the text begins with, and gives how many bytes it took. */
static size_t put_character(const char *text, size_t length)
{
    uint32_t character;
    size_t taken = character_at(text, length, &character);
    if (!taken) {
        fputs("\xef\xbf\xbd", answers());
        return 1;
    }
    if (is_control(character)) {
        fprintf(answers(), "\\u%04" PRIx32, character);
        return taken;
    }
    if (character == '"' || character == '\\')
        fputc('\\', answers());
    fwrite(text, 1, taken, answers());
    return taken;
}

void json_text(const char *key, const struct text *text)
{
    begin_item(key);
    fputc('"', answers());
    for (size_t i = 0; i < text->length;) {
        size_t plain = plain_length(text->at + i, text->length - i);
        fwrite(text->at + i, 1, plain, answers());
        i += plain ? plain : put_character(text->at + i, text->length - i);
    }
    fputc('"', answers());
}

void json_truth(const char *key, int is_true)
{
    begin_item(key);
    fputs(is_true ? "true" : "false", answers());
}

void json_begin_with(const char *name)
{
    has_file = 1;
    file.length = 0;
    if (name)
        say(&file, "%s", name);
}
