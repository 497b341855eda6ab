/*
 * Calls each function of runnelpin.h with another value for every parameter, so that two exchanged ones show: a
 * sound call with its whole answer, then each parameter's own refusal. Wanted values are worked out by hand from
 * docs/FORMAT.md. C99 and C++ alike.
 */
#include "expect.h"
#include "runnelpin.h"

#include <string.h>

#define WIDE (UINT64_C(1) << 32) /* a number that must not be cut to 32 bits */

enum { HEADER = 180, SIGNATURE = 9, BLOCK = 200, BLOCKS = 3, IMAGE = HEADER + SIGNATURE + BLOCKS * BLOCK };
enum { CHECK_PLACE = 60, FILE_BYTES = 164, MEMORY = 8 + 0x20 + 3, STORED_AT = 8 + 0x10 };

static const uint8_t sample_file[FILE_BYTES + 1] = {
    0x5e, 0xb6, 0x8c, 0x44, 0xa2, 0x5f, 0xdc, 0x8a,
    0, 0, 0, 0, 0, 0, 0, 0, 12, 0, 0, 0, 0, 0, 0, 0,                      /* write of four bytes */
    0x10, 0x20, 0, 0, 0, 0, 0, 0, 'w', 'o', 'r', 'd',                     /* at 0x2010 */
    2, 0, 0, 0, 0, 0, 0, 0, 8, 0, 0, 0, 0, 0, 0, 0, 0xbc, 0x0a, 0, 0x10, 0, 0, 0, 0, /* entry 0x10000abc */
    3, 0, 0, 0, 0, 0, 0, 0, 88, 0, 0, 0, 0, 0, 0, 0,                      /* check */
    1, 0, 0, 0, 7, 0, 0, 0, 0x30, 0, 0, 0, 0x3f, 0, 0, 0, 2, 0, 0, 0      /* ECX, EAX, value, mask, register */
};
static const uint8_t map[48] = {
    0x00, 0x10, 0, 0, 0, 0, 0, 0, 8, 0, 0, 0, 0, 0, 0, 0,
    0x00, 0x20, 0, 0, 0, 0, 0, 0, 0x20, 0, 0, 0, 0, 0, 0, 0,
    0x00, 0x30, 0, 0, 0, 0, 0, 0, 3, 0, 0, 0, 0, 0, 0, 0
};
static const uint8_t cpuid[24] = { 7, 0, 0, 0, 1, 0, 0, 0, 1, 0, 0, 0, 2, 0, 0, 0, 0xf0, 0, 0, 0, 3, 0, 0, 0 };

static const int codes[] = {
    RUNNELPIN_DONE,           RUNNELPIN_ARGUMENT,      RUNNELPIN_MAP,            RUNNELPIN_TABLE,
    RUNNELPIN_APPROVED,       RUNNELPIN_HEADER_MAGIC,  RUNNELPIN_HASH_ID,        RUNNELPIN_HASHSUM_LENGTH,
    RUNNELPIN_HEADER_SIZE,    RUNNELPIN_SCHEME,        RUNNELPIN_SIGNATURE_LENGTH, RUNNELPIN_BLOCKS,
    RUNNELPIN_IMAGE_LENGTH,   RUNNELPIN_BLOCK_HASHSUM, RUNNELPIN_BLOCK_PADDING,  RUNNELPIN_LAST_HASH,
    RUNNELPIN_FILE_MAGIC,     RUNNELPIN_COMMAND_CUT,   RUNNELPIN_COMMAND_ID,     RUNNELPIN_COMMAND_LENGTH,
    RUNNELPIN_NOT_REACHABLE,  RUNNELPIN_NOT_RAM,       RUNNELPIN_TEXT,           RUNNELPIN_CPUID_MISSING,
    RUNNELPIN_REGISTER,       RUNNELPIN_NO_RECORD,     RUNNELPIN_CHECK_FAILED,   RUNNELPIN_NO_ENTRY,
    RUNNELPIN_EMPTY_FILE,     RUNNELPIN_OUTPUT_LENGTH
};

static const int hash_ids[] = { RUNNELPIN_NO_HASH, 1, RUNNELPIN_SHA2_256, RUNNELPIN_SHA2_384, RUNNELPIN_SHA2_512 };

static uint8_t image[IMAGE + 1], header[HEADER + 1], memory[MEMORY], output[FILE_BYTES];
static struct runnelpin_answer room[2], *const answer = room; /* the second is never written to */

static uint64_t number(const uint8_t *bytes, size_t width)
{
    uint64_t value = 0;
    while (width > 0)
        value = value << 8 | bytes[--width];
    return value;
}

static void expect_answer(const char *what, uint64_t code, uint64_t place, uint64_t commands, uint64_t stored,
                          uint64_t entry)
{
    const uint64_t wanted[] = { code, place, commands, stored, entry };
    const uint64_t found[] = { answer->code, answer->place, answer->commands, answer->stored, answer->entry };
    for (size_t i = 0; i < sizeof wanted / sizeof *wanted; i++) {
        expect(what, found[i], wanted[i]);
        expect(what, number((const uint8_t *)answer + 8 * i, 8), wanted[i]);
    }
}

/* The call has not written to the record. */
static void expect_no_answer(const char *what)
{
    size_t untouched = 0;
    while (untouched < sizeof room && ((const uint8_t *)room)[untouched] == 0xee)
        untouched++;
    expect(what, untouched, sizeof room);
}

/* What is lent to a call: each test changes one part of what is sound. */
struct lent {
    const uint8_t *image, *header, *file, *map, *cpuid;
    size_t image_length, header_length, file_length, map_length, cpuid_length;
    uint64_t mode, signature_length, ids[4], block_size;
    size_t memory_length, output_length, packed_length, answer_length;
};

static struct lent sound(void)
{
    struct lent l = { image,  header, sample_file, map, cpuid, IMAGE, HEADER, FILE_BYTES, sizeof map, sizeof cpuid,
                      64,     SIGNATURE, { 2, 0, 3, 4 }, BLOCK, MEMORY, FILE_BYTES, IMAGE, sizeof *answer };
    memset(memory, 0xee, sizeof memory);
    memset(output, 0xee, sizeof output);
    memset(room, 0xee, sizeof room);
    return l;
}

static uint64_t load(struct lent l)
{
    return runnelpin_load(l.image, l.image_length, l.header, l.header_length, l.map, l.map_length, l.cpuid,
                          l.cpuid_length, l.mode, l.signature_length, memory, l.memory_length,
                          (uint8_t *)answer, l.answer_length);
}

static uint64_t run(struct lent l)
{
    return runnelpin_run(l.file, l.file_length, l.map, l.map_length, l.cpuid, l.cpuid_length, l.mode, memory,
                         l.memory_length, (uint8_t *)answer, l.answer_length);
}

static uint64_t open_image(struct lent l)
{
    return runnelpin_open(l.image, l.image_length, l.header, l.header_length, l.signature_length, output,
                          l.output_length, (uint8_t *)answer, l.answer_length);
}

static uint64_t pack(struct lent l)
{
    return runnelpin_pack(l.file, l.file_length, l.ids[0], l.ids[1], l.ids[2], l.ids[3], l.block_size,
                          l.signature_length, image, l.packed_length);
}

static uint64_t signature_start(struct lent l)
{
    return runnelpin_signature(l.image, l.image_length, l.header, l.header_length, l.signature_length).start;
}

/* The answer of a call to what is sound but for one part. */
#define WITH(call, part, value) (changed = sound(), changed.part = (value), call(changed))

static struct lent changed;

/* Hashsum 32 + 48 + 64 = 144, so 56 data bytes a block: 164 file bytes are three blocks and padding 4. */
static void test_pack(void)
{
    static const struct {
        size_t at, width;
        uint64_t value;
    } fields[] = { { 0, 4, 0xe6019598 }, { 4, 4, BLOCKS }, { 8, 4, BLOCK }, { 12, 4, SIGNATURE }, { 16, 2, HEADER },
                   { 18, 2, 144 },       { 20, 2, 2 },     { 22, 2, 0 },    { 24, 2, 3 },         { 26, 2, 4 },
                   { 28, 2, 1 },         { 30, 2, 0 },     { 32, 4, 4 } };
    expect("pack", pack(sound()), RUNNELPIN_DONE);
    for (size_t i = 0; i < sizeof fields / sizeof *fields; i++)
        expect("pack: a header field", number(image + fields[i].at, fields[i].width), fields[i].value);
    expect("pack: the file behind hash field and padding",
           (uint64_t)memcmp(image + HEADER + SIGNATURE + 144 + 4, sample_file, 52), 0);
    memcpy(header, image, HEADER);

    expect("pack: file length", WITH(pack, file_length, 0), RUNNELPIN_EMPTY_FILE);
    expect("pack: id1", WITH(pack, ids[0], 0), RUNNELPIN_HASH_ID);
    expect("pack: id2", WITH(pack, ids[1], 5), RUNNELPIN_HASH_ID);
    expect("pack: id3", WITH(pack, ids[2], 65536 + 3), RUNNELPIN_HASH_ID);
    expect("pack: id4", WITH(pack, ids[3], WIDE + 4), RUNNELPIN_HASH_ID);
    expect("pack: block size", WITH(pack, block_size, 144), RUNNELPIN_BLOCKS);
    expect("pack: wide block size", WITH(pack, block_size, WIDE + BLOCK), RUNNELPIN_BLOCKS);
    expect("pack: signature length", WITH(pack, signature_length, 4097), RUNNELPIN_ARGUMENT);
    expect("pack: output length", WITH(pack, packed_length, IMAGE - 1), RUNNELPIN_OUTPUT_LENGTH);
    expect("pack: unchanged by refusals", (uint64_t)memcmp(header, image, HEADER), 0);
}

static void test_signature(void)
{
    struct lent l = sound();
    struct runnelpin_field field =
        runnelpin_signature(l.image, l.image_length, l.header, l.header_length, l.signature_length);
    expect("signature: start", field.start, HEADER);
    expect("signature: length", field.length, SIGNATURE);
    expect("signature: before approval", WITH(signature_start, header, image), HEADER);
    expect("signature: image", WITH(signature_start, image, image + 1), 0);
    expect("signature: image length", WITH(signature_start, image_length, IMAGE - 1), 0);
    expect("signature: header", WITH(signature_start, header, header + 1), 0);
    expect("signature: header length", WITH(signature_start, header_length, HEADER - 1), 0);
    expect("signature: expected length", WITH(signature_start, signature_length, SIGNATURE + 1), 0);
}

/* A record of another length. */
static void test_record(const char *what, uint64_t (*call)(struct lent))
{
    expect(what, WITH(call, answer_length, sizeof *answer - 1), RUNNELPIN_ARGUMENT);
    expect_no_answer(what);
    expect(what, WITH(call, answer_length, sizeof *answer + 1), RUNNELPIN_ARGUMENT);
    expect_no_answer(what);
}

/* The parameters that open and load share. */
static void test_image(const char *what, uint64_t (*call)(struct lent))
{
    expect(what, WITH(call, image, image + 1), RUNNELPIN_APPROVED);
    expect(what, WITH(call, image_length, IMAGE - 1), RUNNELPIN_IMAGE_LENGTH);
    expect(what, WITH(call, header, header + 1), RUNNELPIN_APPROVED);
    expect(what, WITH(call, header_length, HEADER - 1), RUNNELPIN_HEADER_SIZE);
    expect(what, WITH(call, signature_length, SIGNATURE + 1), RUNNELPIN_SIGNATURE_LENGTH);
    expect(what, WITH(call, signature_length, WIDE + SIGNATURE), RUNNELPIN_ARGUMENT);
}

static void test_open(void)
{
    expect("open", open_image(sound()), RUNNELPIN_DONE);
    expect_answer("open: answer", RUNNELPIN_DONE, 0, 0, FILE_BYTES, 0);
    expect("open: output", (uint64_t)memcmp(output, sample_file, FILE_BYTES), 0);

    test_image("open", open_image);
    expect("open: output length", WITH(open_image, output_length, FILE_BYTES - 1), RUNNELPIN_OUTPUT_LENGTH);
    expect_answer("open: refusal", RUNNELPIN_OUTPUT_LENGTH, 0, 0, 0, 0);
    test_record("open: answer length", open_image);
}

/* The parameters that load and run share. */
static void test_board(const char *what, uint64_t (*call)(struct lent))
{
    expect(what, call(sound()), RUNNELPIN_DONE);
    expect_answer(what, RUNNELPIN_DONE, 0, 3, 4, 0x10000abc);
    expect(what, (uint64_t)memcmp(memory + STORED_AT, "word", 4), 0);
    expect(what, memory[STORED_AT - 1], 0xee);
    expect(what, memory[STORED_AT + 4], 0xee);

    expect(what, WITH(call, map, sample_file), RUNNELPIN_MAP);
    expect(what, WITH(call, map_length, 47), RUNNELPIN_MAP);
    expect(what, WITH(call, cpuid, map), RUNNELPIN_NO_RECORD);
    expect(what, WITH(call, cpuid_length, 23), RUNNELPIN_TABLE);
    expect(what, WITH(call, mode, 33), RUNNELPIN_ARGUMENT);
    expect(what, WITH(call, mode, WIDE + 64), RUNNELPIN_ARGUMENT);
    expect(what, WITH(call, memory_length, MEMORY - 1), RUNNELPIN_MAP);
    test_record(what, call);

    changed = sound();
    changed.cpuid = NULL;
    changed.cpuid_length = 0;
    expect(what, call(changed), RUNNELPIN_CPUID_MISSING);
    expect_answer(what, RUNNELPIN_CPUID_MISSING, CHECK_PLACE, 2, 4, 0);
}

static void test_run(void)
{
    test_board("run", run);
    expect("run: file", WITH(run, file, sample_file + 1), RUNNELPIN_FILE_MAGIC);
    expect("run: file length", WITH(run, file_length, FILE_BYTES - 1), RUNNELPIN_COMMAND_CUT);
    expect_answer("run: refusal", RUNNELPIN_COMMAND_CUT, CHECK_PLACE, 2, 4, 0);
}

static void test_load(void)
{
    test_board("load", load);
    test_image("load", load);

    image[IMAGE - 1] ^= 1;
    expect("load: last block", load(sound()), RUNNELPIN_BLOCK_HASHSUM);
    expect_answer("load: refusal", RUNNELPIN_BLOCK_HASHSUM, BLOCKS, 2, 4, 0);
}

int main(void)
{
    for (size_t i = 0; i < sizeof codes / sizeof *codes; i++)
        expect("a code's name", (uint64_t)codes[i], i);
    for (size_t i = 0; i < sizeof hash_ids / sizeof *hash_ids; i++)
        expect("a hash's name", (uint64_t)hash_ids[i], i);
    expect("the record's length", sizeof *answer, RUNNELPIN_ANSWER_BYTES);
    test_pack();
    test_signature();
    test_open();
    test_run();
    test_load();
    return end();
}
