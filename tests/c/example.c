/*
 * Runs the README's example and the man page's, which are taken from there as they stand. The README's has RAM at
 * a fixed address, so this program maps memory there.
 */
#include "page.c"
#include "readme.c"

#include "expect.h"

#include <string.h>
#include <sys/mman.h>

#ifndef MAP_FIXED_NOREPLACE
#define MAP_FIXED_NOREPLACE 0x100000 /* Linux; glibc before 2.27 has no name for it */
#endif

enum { HEADER = 36 + 32, BLOCK = 96, LONGEST = 4096 };

static const uint8_t file[] = {
    0x5e, 0xb6, 0x8c, 0x44, 0xa2, 0x5f, 0xdc, 0x8a,
    0, 0, 0, 0, 0, 0, 0, 0, 12, 0, 0, 0, 0, 0, 0, 0, 0xfc, 0x0f, 0x10, 0, 0, 0, 0, 0, 'w', 'o', 'r', 'd', /* write */
    2, 0, 0, 0, 0, 0, 0, 0, 8, 0, 0, 0, 0, 0, 0, 0, 0xbc, 0x0a, 0x10, 0, 0, 0, 0, 0                       /* entry */
};
static uint8_t image[HEADER + LONGEST + BLOCK], header[HEADER];

/* Holds the example's answer for the image, and its entry, to what is due. */
static void expect_boot(const char *what, size_t length, const uint8_t *approved, uint64_t code, uint64_t due)
{
    uint64_t entry = 1;
    expect(what, boot(image, length, approved, HEADER, &entry), code);
    expect(what, entry, due);
}

/* The part that the chip is to verify is found by the image's own header. */
static void test_finding(size_t length, size_t signature)
{
    size_t header_length = 0;
    struct runnelpin_field field = find_signature(image, length, &header_length);
    expect("the image's own header", header_length, HEADER);
    expect("the signature's start", field.start, HEADER);
    expect("the signature's length", field.length, signature);
    uint64_t found = 0;
    for (size_t cut = 0; cut < length; cut++)
        found += find_signature(image, cut, &header_length).length;
    expect("the signatures of images cut short", found, 0);
}

/* An image as it comes when its chip or GnuPG makes signatures of this length. */
static void test_length(uint8_t *ram, size_t signature)
{
    size_t length = HEADER + signature + BLOCK;
    memset(ram, 0, 4096);
    expect("pack", runnelpin_pack(file, sizeof file, RUNNELPIN_SHA2_256, 0, 0, 0, BLOCK, signature, image, length), 0);
    test_finding(length, signature);
    memset(image + HEADER, 's', signature);
    memcpy(header, image, HEADER);
    expect_boot("a sound image", length, header, RUNNELPIN_DONE, 0x100abc);
    expect("its last bytes of memory", (uint64_t)memcmp(ram + 4092, "word", 4), 0);
    expect_boot("another approved header", length, image + 1, RUNNELPIN_APPROVED, 0);
    image[length - 1] ^= 1;
    expect_boot("a changed block", length, header, RUNNELPIN_BLOCK_HASHSUM, 0);
}

int main(void)
{
    void *ram = mmap((void *)0x100000, 4096, PROT_READ | PROT_WRITE,
                     MAP_PRIVATE | MAP_ANONYMOUS | MAP_FIXED_NOREPLACE, -1, 0);
    expect("RAM's address", (uint64_t)(uintptr_t)ram, 0x100000);
    if (failed)
        return end();
    test_length((uint8_t *)ram, 310); /* what GnuPG makes with an RSA key of 2048 bits */
    test_length((uint8_t *)ram, 309);
    test_length((uint8_t *)ram, 512);
    return end();
}
