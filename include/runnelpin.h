/* Runnelpin: the proved loader for signed block streams, as C calls it. Link with librunnelpin.a (x86-64). */
#ifndef RUNNELPIN_H
#define RUNNELPIN_H

#include <stddef.h>
#include <stdint.h>

#define RUNNELPIN_VERSION "1.0.0"

#ifdef __cplusplus
extern "C" {
#endif

/*
 * Each call has an answer, whatever numbers and bytes it is given; all calls but runnelpin_signature return one
 * of the codes below. No call can check pointers: a slice is a pointer and a length in bytes, and all of these
 * bytes must be there to read, or to write if the call writes to them. A slice may start at any address, without
 * alignment, and may be NULL if its length is 0. What a call writes to must not overlap anything else that is
 * lent to it, and nothing that is lent may change during the call. Image, header, map and table may overlap.
 *
 * For runnelpin_load and runnelpin_open, `header` is the bytes that the security chip approved, never the
 * image's own first bytes. runnelpin_signature is called before approval, with the image's own first bytes,
 * as many as runnelpin_stated_header_length says: what it finds is what the chip then verifies.
 *
 * `signature_length` is the signature length to expect, 1 to 4096. It is the one that `header` states, as
 * runnelpin_stated_signature_length gives it. If all signatures of the unit's chip have one length, pass that
 * number instead; an image with any other is then refused with RUNNELPIN_SIGNATURE_LENGTH. For runnelpin_pack
 * it is the length of the signature field to leave.
 *
 * The calls are for x86-64 and the System V calling convention. They use the general registers, the flags and
 * xmm0 to xmm15, so SSE2 must be on, and the 128 bytes below the stack pointer, so interrupts must be off or
 * handled on another stack. No call takes more than 4 KiB of stack; docs/STUB.md says what each takes. They
 * keep no data between calls, and need memcpy and memset, nothing else.
 */
enum {
    RUNNELPIN_DONE = 0,
    RUNNELPIN_ARGUMENT = 1,          /* record length, mode, signature length not 1 to 4096, over 2^30 bytes */
    RUNNELPIN_MAP = 2,               /* the map breaks a rule, or memory is not as long as its regions */
    RUNNELPIN_TABLE = 3,             /* the CPUID table breaks a rule, or ends within a record */
    RUNNELPIN_APPROVED = 4,          /* approved header under 36 bytes, or the image does not begin with it */
    RUNNELPIN_HEADER_MAGIC = 5,
    RUNNELPIN_HASH_ID = 6,           /* one is not supported, or the first is 0 */
    RUNNELPIN_HASHSUM_LENGTH = 7,    /* not the length of all hashes together */
    RUNNELPIN_HEADER_SIZE = 8,       /* not 36 + hashsum length, or not the approved header's length */
    RUNNELPIN_SCHEME = 9,            /* signature scheme not 1 */
    RUNNELPIN_SIGNATURE_LENGTH = 10, /* not the expected one */
    RUNNELPIN_BLOCKS = 11,           /* block count, block size or padding out of range */
    RUNNELPIN_IMAGE_LENGTH = 12,     /* not the length of header, signature field and blocks together */
    /* A block; place: its number, from 1. */
    RUNNELPIN_BLOCK_HASHSUM = 13,    /* it does not match */
    RUNNELPIN_BLOCK_PADDING = 14,    /* it is not all zeros */
    RUNNELPIN_LAST_HASH = 15,        /* the last block's hash field is not all zeros */
    RUNNELPIN_FILE_MAGIC = 16,       /* not a command file: under 8 bytes, or another magic number */
    /* A command; place: the file offset of its first byte. */
    RUNNELPIN_COMMAND_CUT = 17,      /* it runs past the end of the file */
    RUNNELPIN_COMMAND_ID = 18,       /* it is unknown */
    RUNNELPIN_COMMAND_LENGTH = 19,   /* its data length is wrong */
    RUNNELPIN_NOT_REACHABLE = 20,    /* an address is beyond the reach of the mode */
    RUNNELPIN_NOT_RAM = 21,          /* an address is in no region of the map */
    RUNNELPIN_TEXT = 22,             /* a check's text has no zero byte */
    RUNNELPIN_CPUID_MISSING = 23,    /* a check, but the table is empty */
    RUNNELPIN_REGISTER = 24,         /* a check's result register is over 3 */
    RUNNELPIN_NO_RECORD = 25,        /* the table has no record with a check's inputs */
    RUNNELPIN_CHECK_FAILED = 26,     /* a check found a different value */
    RUNNELPIN_NO_ENTRY = 27,         /* the file has no entry command; place: the file's length */
    RUNNELPIN_EMPTY_FILE = 28,       /* pack: nothing to pack */
    RUNNELPIN_OUTPUT_LENGTH = 29     /* open, pack: output is not exactly as long as the result */
};

/*
 * The answer record that open, run and load fill in: these 64-bit little-endian numbers, one after another.
 * The struct has the same layout, so lend one: (uint8_t *)&answer, sizeof answer. A record of any other
 * length gives RUNNELPIN_ARGUMENT, and then nothing is written anywhere.
 */
#define RUNNELPIN_ANSWER_BYTES 40

struct runnelpin_answer {
    uint64_t code;
    uint64_t place;
    uint64_t commands; /* done */
    uint64_t stored;   /* bytes */
    uint64_t entry;    /* 0 unless the code is RUNNELPIN_DONE */
};

/*
 * The map is the unit's RAM: 1 to 16 records of 16 bytes, base and length of a region, little-endian, in
 * ascending order, not overlapping, each length at least 1, each end at most 2^52. Memory is one slice: the
 * bytes of the regions, one region after another in map order, at most 2^32 together. The caller must keep
 * image, header, map, table, answer record, stack and its own code out of every region. The CPUID table is at
 * most 64 records of six 32-bit little-endian words, the inputs EAX and ECX, then the results EAX, EBX, ECX and
 * EDX, in ascending order of the inputs. Mode is 32 or 64: addresses below 2^32 or below 2^52 can be reached.
 */

/* Proves the image block by block and runs its commands: a byte is stored as soon as its block is proved. */
uint64_t runnelpin_load(const uint8_t *image, size_t image_length, const uint8_t *header, size_t header_length,
                        const uint8_t *map, size_t map_length, const uint8_t *cpuid, size_t cpuid_length,
                        uint64_t mode, uint64_t signature_length, uint8_t *memory, size_t memory_length,
                        uint8_t *answer, size_t answer_length);

/* Runs the commands of a file that is not in an image. */
uint64_t runnelpin_run(const uint8_t *file, size_t file_length, const uint8_t *map, size_t map_length,
                       const uint8_t *cpuid, size_t cpuid_length, uint64_t mode, uint8_t *memory,
                       size_t memory_length, uint8_t *answer, size_t answer_length);

/* Proves the image block by block and copies out its file; output must be exactly as long as the file. */
uint64_t runnelpin_open(const uint8_t *image, size_t image_length, const uint8_t *header, size_t header_length,
                        uint64_t signature_length, uint8_t *output, size_t output_length, uint8_t *answer,
                        size_t answer_length);

/* The hashes that an image may be packed with, by their IDs in a header. */
enum {
    RUNNELPIN_NO_HASH = 0,
    RUNNELPIN_SHA2_256 = 2,
    RUNNELPIN_SHA2_384 = 3,
    RUNNELPIN_SHA2_512 = 4
};

/* Writes the image of a file, with a signature field of zeros; output must be exactly as long as the image. */
uint64_t runnelpin_pack(const uint8_t *file, size_t file_length, uint64_t id1, uint64_t id2, uint64_t id3,
                        uint64_t id4, uint64_t block_size, uint64_t signature_length, uint8_t *output,
                        size_t output_length);

/* Where the signature field is in the image; start and length are 0 if open would refuse with 1 or 4 to 12. */
struct runnelpin_field {
    uint64_t start;
    uint64_t length;
};

struct runnelpin_field runnelpin_signature(const uint8_t *image, size_t image_length, const uint8_t *header,
                                           size_t header_length, uint64_t signature_length);

/*
 * Lengths, worked out from numbers and headers. These functions are not part of the library and are not proved:
 * the calls check for themselves everything that they are given.
 */

/* Of a hash's digest; 0 for RUNNELPIN_NO_HASH and for an unknown ID. */
static inline uint64_t runnelpin_digest_length(uint64_t id)
{
    switch (id) {
    case RUNNELPIN_SHA2_256:
        return 32;
    case RUNNELPIN_SHA2_384:
        return 48;
    case RUNNELPIN_SHA2_512:
        return 64;
    default:
        return 0;
    }
}

/* Of the hashsum that these hashes make together; 0 if one is unknown or the first is RUNNELPIN_NO_HASH. */
static inline uint64_t runnelpin_hashsum_length(uint64_t id1, uint64_t id2, uint64_t id3, uint64_t id4)
{
    uint64_t length1 = runnelpin_digest_length(id1), length2 = runnelpin_digest_length(id2),
             length3 = runnelpin_digest_length(id3), length4 = runnelpin_digest_length(id4);
    if (length1 == 0 || (length2 == 0 && id2 != 0) || (length3 == 0 && id3 != 0) || (length4 == 0 && id4 != 0))
        return 0;
    return length1 + length2 + length3 + length4;
}

/*
 * Of the image of a file, which is the length that runnelpin_pack's output must have; 0 if that call refuses
 * these numbers with any output.
 */
static inline uint64_t runnelpin_image_length(uint64_t file_length, uint64_t id1, uint64_t id2, uint64_t id3,
                                              uint64_t id4, uint64_t block_size, uint64_t signature_length)
{
    const uint64_t limit = 1073741824; /* 2^30 */
    const uint64_t hashsum = runnelpin_hashsum_length(id1, id2, id3, id4);
    if (hashsum == 0 || block_size <= hashsum || block_size > 1048576 || file_length < 1 || file_length > limit ||
        signature_length < 1 || signature_length > 4096)
        return 0;

    uint64_t data = block_size - hashsum, blocks = (file_length + data - 1) / data;
    uint64_t length = 36 + hashsum + signature_length + blocks * block_size;
    return length > limit ? 0 : length;
}

/* For the functions below: the number in `width` bytes of a header from `at` on, little-endian. */
static inline uint64_t runnelpin_header_number(const uint8_t *header, size_t at, size_t width)
{
    uint64_t value = 0;
    while (width > 0)
        value = value << 8 | header[at + --width];
    return value;
}

/* Of the image's own header, as it states; 0 if the image is shorter than that. */
static inline size_t runnelpin_stated_header_length(const uint8_t *image, size_t image_length)
{
    size_t stated = image_length < 36 ? 0 : (size_t)runnelpin_header_number(image, 16, 2);
    return stated > image_length ? 0 : stated;
}

/*
 * The signature length that a header states, or 1 if it states none from 1 to 4096 or has under 36 bytes. Such a
 * header is refused whatever length is expected; with 1, the code says what is wrong with it.
 */
static inline uint64_t runnelpin_stated_signature_length(const uint8_t *header, size_t header_length)
{
    uint64_t stated = header_length < 36 ? 1 : runnelpin_header_number(header, 12, 4);
    return stated < 1 || stated > 4096 ? 1 : stated;
}

/*
 * Of the file in an image with this header, which is the length that runnelpin_open's output must have; 0 if that
 * call refuses this header whatever else it is given.
 */
static inline uint64_t runnelpin_file_length(const uint8_t *header, size_t header_length)
{
    if (header_length < 36 || runnelpin_header_number(header, 0, 4) != 0xe6019598 ||
        runnelpin_header_number(header, 28, 2) != 1)
        return 0;

    uint64_t id1 = runnelpin_header_number(header, 20, 2), id2 = runnelpin_header_number(header, 22, 2),
             id3 = runnelpin_header_number(header, 24, 2), id4 = runnelpin_header_number(header, 26, 2);
    uint64_t hashsum = runnelpin_hashsum_length(id1, id2, id3, id4);
    if (runnelpin_header_number(header, 18, 2) != hashsum || runnelpin_header_number(header, 16, 2) != 36 + hashsum ||
        header_length != 36 + hashsum)
        return 0;

    uint64_t blocks = runnelpin_header_number(header, 4, 4), block_size = runnelpin_header_number(header, 8, 4),
             padding = runnelpin_header_number(header, 32, 4);
    if (blocks == 0 || block_size <= hashsum || padding >= block_size - hashsum)
        return 0;

    uint64_t file_length = blocks * (block_size - hashsum) - padding;
    uint64_t image_length = runnelpin_image_length(file_length, id1, id2, id3, id4, block_size,
                                                   runnelpin_header_number(header, 12, 4));
    return image_length == 0 ? 0 : file_length;
}

#ifdef __cplusplus
}
#endif

#endif
