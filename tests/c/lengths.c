/*
 * Holds the length functions of runnelpin.h to the library: one gives a length exactly where the call, lent an output
 * of no bytes, finds nothing wrong but that. C99 and C++ alike.
 */
#include "expect.h"
#include "runnelpin.h"

#include <string.h>
#include <sys/mman.h>

#define WIDE (UINT64_C(1) << 32) /* a number that must not be cut to 32 bits */
#define LIMIT (UINT64_C(1) << 30)
#define COUNT(list) (sizeof(list) / sizeof *(list))

enum { SMALL = 1 << 14 };

/* Zeros to lend as a file or an image; a page takes memory only once it is written to. */
static const uint64_t lent_bytes = 2 * WIDE;
static uint8_t *lent, small[SMALL];

/* Numbers to pick from, sound ones and others. The generator is Marsaglia's xorshift64. */
static uint64_t pick(const uint64_t *list, size_t count)
{
    static uint64_t state = 1;
    state ^= state << 13;
    state ^= state >> 7;
    state ^= state << 17;
    return list[(state >> 20) % count];
}

#define PICK(list) pick(list, COUNT(list))

static uint64_t picked_id(void)
{
    static const uint64_t ids[] = { 0, 0, 2, 2, 3, 3, 4, 4, 2, 3, 4, 1, 5, 65538, WIDE + 2, UINT64_MAX };
    return PICK(ids);
}

struct packing {
    uint64_t file_length, ids[4], block_size, signature_length;
};

static uint64_t due_length(const struct packing *p)
{
    return runnelpin_image_length(p->file_length, p->ids[0], p->ids[1], p->ids[2], p->ids[3], p->block_size,
                                  p->signature_length);
}

static uint64_t pack(const struct packing *p, uint8_t *output, uint64_t length)
{
    return runnelpin_pack(lent, p->file_length, p->ids[0], p->ids[1], p->ids[2], p->ids[3], p->block_size,
                          p->signature_length, output, length);
}

static struct packing picked_packing(void)
{
    static const uint64_t files[] = { 0, 1, 55, 56, 57, 64, 65, 164, 5000, LIMIT - 1, LIMIT, LIMIT + 1, WIDE + 9 };
    static const uint64_t blocks[] = { 0, 32, 33, 96, 144, 145, 200, 256, 257, 1048576, 1048577, WIDE + 96 };
    static const uint64_t signatures[] = { 0, 1, 9, 310, 4096, 4097, WIDE + 9, UINT64_MAX };
    struct packing p = { PICK(files), { picked_id(), picked_id(), picked_id(), picked_id() }, PICK(blocks),
                         PICK(signatures) };
    return p;
}

/* Whether library and header agree on these numbers, and on the length where the image is a small one. */
static int agrees(const struct packing *p)
{
    uint64_t length = due_length(p);
    if ((length != 0) != (pack(p, NULL, 0) == RUNNELPIN_OUTPUT_LENGTH))
        return 0;
    return length == 0 || length > SMALL || pack(p, small, length) == RUNNELPIN_DONE;
}

/* The file that fills an image of at most 2^30 bytes, and one byte more. */
static int agrees_at_limit(struct packing p)
{
    uint64_t hashsum = runnelpin_hashsum_length(p.ids[0], p.ids[1], p.ids[2], p.ids[3]), before = 36 + hashsum;
    if (hashsum == 0 || p.block_size <= hashsum || p.block_size > 1048576 || p.signature_length > 4096)
        return 1;
    p.file_length = (LIMIT - before - p.signature_length) / p.block_size * (p.block_size - hashsum);
    int fits = agrees(&p);
    p.file_length++;
    return fits && due_length(&p) == 0 && agrees(&p);
}

static void test_packing(void)
{
    uint64_t wrong = 0, given = 0;
    for (int i = 0; i < 200000; i++) {
        struct packing p = picked_packing();
        wrong += !agrees(&p) || !agrees_at_limit(p);
        given += due_length(&p) != 0;
    }
    for (struct packing p = { UINT64_MAX, { 2, 0, 0, 0 }, 33, 1 }; p.file_length > LIMIT; p.file_length /= 2)
        wrong += due_length(&p) != 0;
    expect("image lengths that pack judges otherwise", wrong, 0);
    expect("enough image lengths", given > 1000, 1);
}

static void put(uint8_t *header, size_t at, size_t width, uint64_t value)
{
    for (size_t i = 0; i < width; i++)
        header[at + i] = (uint8_t)(value >> 8 * i);
}

/* A header like pack's, but for what is picked; often it is sound. */
static size_t pick_header(uint8_t *header)
{
    static const uint64_t yes[] = { 1, 1, 1, 1, 1, 1, 1, 1, 1, 1, 1, 1, 1, 1, 1, 0 };
    static const uint64_t sums[] = { 0, 36, 80, 145, 65500 }, counts[] = { 1, 2, 3, 7, 5000, 1024, 0, UINT32_MAX };
    static const uint64_t sizes[] = { 200, 145, 300, 1048576, 257, 144, 0, 1048577, UINT32_MAX };
    static const uint64_t signatures[] = { 1, 9, 310, 4096, 0, 4097, UINT32_MAX };
    static const uint64_t paddings[] = { 0, 0, 1, 43, 55, 56, 200, UINT32_MAX }, lengths[] = { 0, 35, 36, 37, 292 };
    uint64_t ids[4] = { picked_id(), picked_id(), picked_id(), picked_id() };
    uint64_t sum = runnelpin_hashsum_length(ids[0] & 0xffff, ids[1] & 0xffff, ids[2] & 0xffff, ids[3] & 0xffff);
    uint64_t stated = PICK(yes) ? sum : PICK(sums), size = 36 + (PICK(yes) ? sum : stated);
    memset(header, 0, 400);
    put(header, 0, 4, 0xe6019598 + !PICK(yes));
    put(header, 4, 4, PICK(counts));
    put(header, 8, 4, PICK(sizes));
    put(header, 12, 4, PICK(signatures));
    put(header, 16, 2, size);
    put(header, 18, 2, stated);
    for (size_t i = 0; i < 4; i++)
        put(header, 20 + 2 * i, 2, ids[i]);
    put(header, 28, 2, PICK(yes));
    put(header, 30, 2, PICK(yes));
    put(header, 32, 4, PICK(paddings));
    return (size_t)(PICK(yes) ? 36 + sum : PICK(lengths));
}

/* The length of an image as its header says. */
static uint64_t stated_length(const uint8_t *header)
{
    return runnelpin_header_number(header, 16, 2) + runnelpin_header_number(header, 12, 4) +
           runnelpin_header_number(header, 4, 4) * runnelpin_header_number(header, 8, 4);
}

/* Opens an image of zeros behind this header, as long as the header says. */
static uint64_t open_into(const uint8_t *header, size_t header_length, uint8_t *output, uint64_t length)
{
    uint64_t image_length = stated_length(header);
    struct runnelpin_answer answer;
    return runnelpin_open(lent, image_length > lent_bytes ? lent_bytes : image_length, header, header_length,
                          runnelpin_stated_signature_length(header, header_length), output, length,
                          (uint8_t *)&answer, sizeof answer);
}

/*
 * Whether library and header agree on a header, and on the length where the file is a small one. With the stated
 * signature length nothing is refused as an argument but an image that is too long.
 */
static int agrees_on_header(const uint8_t *header, size_t header_length)
{
    uint64_t length = runnelpin_file_length(header, header_length), code = open_into(header, header_length, NULL, 0);
    if ((length != 0) != (code == RUNNELPIN_OUTPUT_LENGTH) ||
        (code == RUNNELPIN_ARGUMENT) != (stated_length(header) > LIMIT))
        return 0;
    return length == 0 || length > SMALL ||
           open_into(header, header_length, small, length) == RUNNELPIN_BLOCK_HASHSUM;
}

static void test_headers(void)
{
    uint8_t header[400];
    uint64_t wrong = 0, given = 0;
    for (int i = 0; i < 200000; i++) {
        size_t length = pick_header(header);
        memcpy(lent, header, sizeof header);
        wrong += !agrees_on_header(header, length);
        given += runnelpin_file_length(header, length) != 0;
    }
    memset(lent, 0, sizeof header);
    expect("file lengths that open judges otherwise", wrong, 0);
    expect("enough file lengths", given > 1000, 1);
}

/* What a header states; the bytes behind its end are not looked at. */
static void test_stated(void)
{
    uint8_t header[36];
    memset(header, 0xff, sizeof header);
    expect("no header", runnelpin_file_length(NULL, 0) + runnelpin_stated_header_length(NULL, 0), 0);
    expect("the signature length of no header", runnelpin_stated_signature_length(NULL, 0), 1);
    expect("that of a header cut short", runnelpin_stated_signature_length(header, 35), 1);
    expect("one over 4096", runnelpin_stated_signature_length(header, 36), 1);
    put(header, 12, 4, 0);
    expect("one of 0", runnelpin_stated_signature_length(header, 36), 1);
    put(header, 12, 4, 4096);
    expect("one of 4096", runnelpin_stated_signature_length(header, 36), 4096);
    expect("a header size over the image's length", runnelpin_stated_header_length(header, 36), 0);
    put(header, 16, 2, 37);
    expect("one byte over it", runnelpin_stated_header_length(header, 36), 0);
    put(header, 16, 2, 36);
    expect("just that length", runnelpin_stated_header_length(header, 36), 36);
    put(header, 16, 2, 20);
    expect("an image under 36 bytes", runnelpin_stated_header_length(header, 35), 0);
}

int main(void)
{
    void *at = mmap(NULL, lent_bytes, PROT_READ, MAP_PRIVATE | MAP_ANONYMOUS | MAP_NORESERVE, -1, 0);
    expect("memory to lend", at != MAP_FAILED && mprotect(at, SMALL, PROT_READ | PROT_WRITE) == 0, 1);
    if (failed)
        return end();
    lent = (uint8_t *)at;
    test_packing();
    test_headers();
    test_stated();
    return end();
}
