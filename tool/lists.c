#include "lists.h"

#include "cpuid.h"
#include "fail.h"
#include "files.h"
#include "numbers.h"
#include "text.h"

#include <string.h>

enum { MOST_TEXT = 1 << 20 };

/* How one record is written: so many numbers, each kept in so many bytes. */
struct form {
    const char *name, *line;
    size_t numbers, width;
};

static const struct form region = {"a region", "base and length", 2, 8};
static const struct form record = {
    "a CPUID record", "two inputs, EAX and ECX, and four results, EAX, EBX, ECX and EDX", RECORD_WORDS, 4};

/* The text that is still to be read, and the number of the line that it begins with. */
struct reading {
    const struct form *form;
    const char *path, *at, *end;
    size_t line;
};

static void bad_number(const struct reading *r, const char *word, size_t length)
{
    struct text quoted = {NULL, 0};
    say_quoted(&quoted, (const uint8_t *)word, length < 24 ? length : 24);
    fail("%s, line %zu: %s is not a %zu-bit number (decimal, or hexadecimal after 0x)", r->path, r->line, quoted.at,
         8 * r->form->width);
}

static int is_between(char character)
{
    return character == ' ' || character == '\t' || character == '\r'; /* CR is part of a line end */
}

static const char *end_of_word(const char *at, const char *stop)
{
    while (at < stop && *at != '#' && !is_between(*at))
        at++;
    return at;
}

/* Puts the numbers of the line up to `stop` into the list, unless there are none; gives their count. */
static size_t read_numbers(struct list *list, const struct reading *r, const char *stop)
{
    const struct form *form = r->form;
    size_t count = 0;
    for (const char *at = r->at; at < stop && *at != '#';) {
        size_t length = (size_t)(end_of_word(at, stop) - at);
        uint64_t value;
        if (length && !read_number(at, length, UINT64_MAX >> (64 - 8 * form->width), &value))
            bad_number(r, at, length);
        if (length && count++ < form->numbers) {
            put_little(list->at + list->length, form->width, value);
            list->length += form->width;
        }
        at += length ? length : 1;
    }
    return count;
}

static void read_line(struct list *list, const struct reading *r, const char *stop)
{
    const struct form *form = r->form;
    size_t before = list->length / (form->numbers * form->width);
    size_t count = read_numbers(list, r, stop);
    if (count && count != form->numbers)
        fail("%s, line %zu: %zu number%s, but %s has %zu: %s", r->path, r->line, count, plural(count), form->name,
             form->numbers, form->line);
    if (count)
        list->lines[before] = r->line;
}

/* The file's text, without the byte order mark that some editors put before it. */
static struct reading begin_text(const char *path, const struct form *form)
{
    static const char mark[] = "\xef\xbb\xbf";
    struct bytes text = read_file(path, MOST_TEXT);
    if (text.length > MOST_TEXT)
        fail("%s: over %d bytes; this should be a text file, on each line %s", path, MOST_TEXT, form->line);
    const char *at = (const char *)text.at, *end = at + text.length;
    if (text.length >= strlen(mark) && !memcmp(at, mark, strlen(mark)))
        at += strlen(mark);
    return (struct reading){form, path, at, end, 1};
}

/* An empty list with room for a record on each line. */
static struct list new_list(const struct reading *r)
{
    size_t lines = 1;
    for (const char *at = r->at; at < r->end; at++)
        lines += *at == '\n';
    return (struct list){.at = allocate(NULL, lines * r->form->numbers * r->form->width),
                         .path = r->path,
                         .lines = allocate(NULL, lines * sizeof(size_t))};
}

static struct list read_list(const char *path, const struct form *form)
{
    struct reading r = begin_text(path, form);
    struct list list = new_list(&r);
    for (; r.at < r.end; r.line++) {
        const char *stop = memchr(r.at, '\n', (size_t)(r.end - r.at));
        if (!stop)
            stop = r.end;
        read_line(&list, &r, stop);
        r.at = stop < r.end ? stop + 1 : r.end;
    }
    return list;
}

struct list read_map(const char *path)
{
    return read_list(path, &region);
}

struct list read_table(const char *path)
{
    return read_list(path, &record);
}
