/*
 * What the boot stub says of the loader's answers, on the machine that builds. Of an image it is lent no more than
 * the blocks before the bad one: the sanitizer notices if it reads on.
 */
#define _POSIX_C_SOURCE 200809L
#include "answer.h"
#include "codes.h"
#include "serial.h"

#include <inttypes.h>
#include <stdio.h>
#include <stdlib.h>
#include <string.h>

enum { HASHSUM = 32, BLOCKS_AT = 36 + HASHSUM + 1, WORD = 8, MOST_WORDS = 16, MOST_IMAGE = 1024 };
#define FILE_MAGIC 0x8adc5fa2448cb65e
#define RAM 0x1000

static FILE *port;

void say(const char *text)
{
    fputs(text, port);
}

void say_number(uint64_t number)
{
    fprintf(port, "%" PRIu64, number);
}

void say_address(uint64_t address)
{
    fprintf(port, "0x%" PRIx64, address);
}

/* A file in words of 8 bytes. With 8 bytes of it in a block the magic is block 1, and then each word is a block. */
struct answer_case {
    uint64_t code;
    const char *place; /* what is due behind the code's meaning */
    uint64_t block_data;
    uint64_t bad_block; /* 0 for none */
    size_t words;       /* behind the magic */
    uint64_t file[MOST_WORDS - 1];
};

static const struct answer_case cases[] = {
    { 18, "; file offset 8: command 4", 8, 4, 3, { 4, 8, 1 } },
    { 18, "; file offset 24: command 59999", 8, 6, 5, { 60000, 0, 59999, 8, 1 } },
    { 17, "; file offset 8: vendor command 60001", 8, 4, 3, { 0x10000 | 60001, 9, 1 } }, /* and a reserved byte */
    { 17, "; file offset 24", 8, 4, 3, { 65535, 0, 1 } },
    { 17, "; file offset 8: write", 8, 4, 3, { 0, 100, RAM } },
    { 19, "; file offset 8: write", 8, 4, 3, { 0, 7, RAM } },
    { 19, "; file offset 8: fill", 8, 4, 4, { 1, 16, RAM, 1 } },
    { 19, "; file offset 8: entry", 8, 4, 4, { 2, 16, RAM, 1 } },
    { 19, "; file offset 8: CPUID check", 8, 4, 4, { 3, 16, 1, 1 } },
    { 20, "; file offset 8: write at 0x10000000000000", 8, 5, 4, { 0, 16, 1ull << 52, 1 } },
    { 20, "; file offset 8: entry at 0xffffffffffffffff", 8, 5, 4, { 2, 8, UINT64_MAX, 1 } },
    { 21, "; file offset 8: write at 0x2000", 8, 5, 4, { 0, 16, 0x2000, 1 } },
    { 21, "; file offset 8: fill at 0x1800", 8, 7, 6, { 1, 24, 0x1800, 0x801, 1, 1 } },
    { 21, "; file offset 24: write at 0x1ffc", 24, 0, 6, { 60000, 0, 0, 16, 0x1ffc, 1 } },
    { 23, "; file offset 8: CPUID check", 8, 15, 14, { 3, 88 } },
    { 27, "; file length 24", 8, 0, 2, { 60000, 0 } },
    { 13, "; block 1", 8, 1, 3, { 2, 8, RAM } },
    { 13, "; block 2", 8, 2, 3, { 2, 8, RAM } },
    { 13, "; block 3", 8, 3, 3, { 2, 8, RAM } },
    { 13, "; block 4, within command 1 at file offset 8: entry", 8, 4, 3, { 2, 8, RAM } },
    { 13, "; block 4, within command 1 at file offset 8: write", 8, 4, 4, { 0, 16, RAM, 1 } },
    { 13, "; block 5, within command 1 at file offset 8: write at 0x1000", 8, 5, 4, { 0, 16, RAM, 1 } },
    { 13, "; block 6, within command 1 at file offset 8: fill", 8, 6, 5, { 1, 24, RAM, 1, 1 } },
    { 13, "; block 7", 8, 7, 8, { 1, 24, RAM, 1, 1, 2, 8, RAM } },
    { 13, "; block 10, within command 3 at file offset 56: vendor command 60001", 8, 10, 9,
      { 0, 16, RAM, 1, 65535, 0, 60001, 8, 1 } },
    { 13, "; block 3", 24, 3, 9, { 60000, 0, 0, 40, RAM, 1, 1, 1, 1 } },
    { 13, "; block 4, within command 2 at file offset 24: write at 0x1000", 24, 4, 9,
      { 60000, 0, 0, 40, RAM, 1, 1, 1, 1 } },
};

/* Packs the file, and changes a byte of the bad block. Gives the length up to there. */
static size_t make_image(const struct answer_case *c, uint8_t *image, size_t *length)
{
    uint64_t file[MOST_WORDS] = { FILE_MAGIC }, block_size = HASHSUM + c->block_data;
    size_t file_length = WORD * (1 + c->words), good;

    memcpy(file + 1, c->file, sizeof c->file);
    *length = runnelpin_image_length(file_length, RUNNELPIN_SHA2_256, 0, 0, 0, block_size, 1);
    runnelpin_pack((const uint8_t *)file, file_length, RUNNELPIN_SHA2_256, 0, 0, 0, block_size, 1, image, *length);
    if (!c->bad_block)
        return *length;
    good = BLOCKS_AT + (c->bad_block - 1) * block_size;
    image[good] ^= 1;
    return good;
}

static struct runnelpin_answer load(const uint8_t *image, size_t length)
{
    static uint8_t memory[0x1000];
    static const uint64_t map[] = { RAM, sizeof memory };
    struct runnelpin_answer answer = { .code = UINT64_MAX };

    runnelpin_load(image, length, image, BLOCKS_AT - 1, (const uint8_t *)map, sizeof map, NULL, 0, 64, 1, memory,
                   sizeof memory, (uint8_t *)&answer, sizeof answer);
    return answer;
}

/* What is due, by the record and the case. */
static void say_due(const struct answer_case *c, struct runnelpin_answer answer)
{
    const struct code *code = code_of(c->code);
    fprintf(port, "refused: %" PRIu64 ", %s: %s%s", c->code, code->name, code->meaning, c->place);
    fprintf(port, "; commands done %" PRIu64 ", bytes stored %" PRIu64 ", entry 0x0\n", answer.commands, answer.stored);
}

/* Gives whether the stub says what is due. */
static int try_case(const struct answer_case *c)
{
    static uint8_t image[MOST_IMAGE];
    size_t length, good = make_image(c, image, &length);
    struct runnelpin_answer answer = load(image, length);
    uint8_t *proved = malloc(good);
    char said[512] = "", due[512] = "";

    memcpy(proved, image, good);
    port = fmemopen(said, sizeof said, "w");
    say_answer(answer, (struct slice){ proved, good });
    fclose(port);
    port = fmemopen(due, sizeof due, "w");
    say_due(c, answer);
    fclose(port);
    free(proved);
    if (strcmp(said, due))
        printf("said: %sdue:  %s", said, due);
    return !strcmp(said, due);
}

int main(void)
{
    int failed = 0;
    for (size_t i = 0; i < sizeof cases / sizeof *cases; i++)
        failed |= !try_case(&cases[i]);
    return failed;
}
