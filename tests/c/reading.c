/* What read_file gives of a file that is too long: one byte over the most, and the file's own bytes first. */
#define _DEFAULT_SOURCE /* mkstemp, ftruncate */
#include "expect.h"
#include "files.h"
#include "image.h"

#include <stdlib.h>
#include <string.h>
#include <unistd.h>

enum { BEGINNING = 1 << 20 };

static uint8_t beginning[BEGINNING];

/* A file of this length that begins so, with a hole behind. */
static void make_file(char *path, uint64_t length)
{
    int file = mkstemp(path);
    expect("written", (uint64_t)write(file, beginning, sizeof beginning), sizeof beginning);
    expect("made", (uint64_t)ftruncate(file, (off_t)length), 0);
    close(file);
}

int main(void)
{
    char path[] = "build/c/long-XXXXXX";
    memset(beginning, 0x5a, sizeof beginning);
    make_file(path, (uint64_t)LARGEST + 1);
    struct bytes over = read_file(path, LARGEST), few = read_file(path, 7);
    expect("length over the most", over.length, (uint64_t)LARGEST + 1);
    expect("its own bytes", memcmp(over.at, beginning, sizeof beginning) == 0, 1);
    expect("a few bytes", few.length == 8 && !memcmp(few.at, beginning, 8), 1);
    unlink(path);
    return end();
}
