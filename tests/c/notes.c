/* The notes of a report: as many as are made, each printed as it was said. Built with the address sanitizer. */
#include "expect.h"
#include "print.h"
#include "report.h"

#include <string.h>

enum { MANY = 1000 };

/* The line of this number, as it is printed; the number of lines where there is none. */
static uint64_t read_line(FILE *file, uint64_t number, char *line, int size)
{
    uint64_t i = 0;
    rewind(file);
    while (fgets(line, size, file) && i < number)
        i++;
    return i;
}

int main(void)
{
    struct request request = { .operand = "file" };
    struct report report = new_report(&request);
    char line[64];
    FILE *file = tmpfile();
    answer_on(file);
    say(&report.words, "done");
    struct text *first = note(&report);
    for (int i = 1; i < MANY; i++)
        say(note(&report), "note %d", i);
    say(first, "said last");
    expect("exit status", finish(&report), 0);
    expect("lines", read_line(file, UINT64_MAX, line, sizeof line), 1 + MANY);
    read_line(file, 1, line, sizeof line);
    expect("the first note", strcmp(line, "said last\n") == 0, 1);
    read_line(file, MANY, line, sizeof line);
    expect("the last note", strcmp(line, "note 999\n") == 0, 1);
    return end();
}
