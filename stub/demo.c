/*
 * The example as a whole, on Linux: a damaged image is refused, a sound one is loaded and entered. What a unit
 * does with page tables, so that memory is one slice over regions with holes between them, is done here by
 * moving pages once they are loaded.
 */
#include "boot.h"
#include "fields.h"
#include "unit.h"

enum { LINUX_MPROTECT = 10, LINUX_MREMAP = 25, LINUX_EXIT = 60 };
enum { READ_AND_EXECUTE = 5, MOVE_TO_ADDRESS = 3 };

extern const uint8_t built_in_image[], built_in_image_end[], approved_header[], approved_header_end[];
long linux_call(long number, long a, long b, long c, long d, long e);
void demo(void);

static uint8_t memory[MEMORY_LENGTH] __attribute__((aligned(4096)));
static uint8_t damaged[1 << 16];
static struct cpuid_table table;
static const uint64_t regions[2][2] = { { LOW_BASE, LOW_LENGTH }, { HIGH_BASE, HIGH_LENGTH } };

static void end(uint64_t status)
{
    for (;;)
        linux_call(LINUX_EXIT, (long)status, 0, 0, 0, 0);
}

/* Brings each region's pages to the address that the map gives it, and lets the low ones be run. */
static void place_regions(void)
{
    const uint8_t *from = memory;
    for (size_t i = 0; i < 2; i++) {
        long base = (long)regions[i][0], length = (long)regions[i][1];
        if (linux_call(LINUX_MREMAP, (long)from, length, length, MOVE_TO_ADDRESS, base) != base)
            end(STATUS_PLACING);
        from += length;
    }
    if (linux_call(LINUX_MPROTECT, LOW_BASE, LOW_LENGTH, READ_AND_EXECUTE, 0, 0) != 0)
        end(STATUS_PLACING);
}

static struct runnelpin_answer load_damaged(const struct unit *unit, struct slice image, struct slice header)
{
    struct slice copy = { damaged, image.length };
    if (image.length > sizeof damaged)
        end(STATUS_DAMAGED);
    for (size_t i = 0; i < image.length; i++)
        damaged[i] = image.at[i];
    damaged[image.length - 1] ^= 1;
    return boot_load(unit, copy, header);
}

/* The changed byte is in the last block: what stood before it is stored, and no entry is handed out. */
static int is_refused(struct runnelpin_answer answer, struct slice header)
{
    uint64_t blocks = field(header.at, FIELD_BLOCK_COUNT);
    return answer.code == RUNNELPIN_BLOCK_HASHSUM && answer.place == blocks && answer.stored != 0 && answer.entry == 0;
}

void demo(void)
{
    struct slice image = { built_in_image, (size_t)(built_in_image_end - built_in_image) };
    struct slice header = { approved_header, (size_t)(approved_header_end - approved_header) };
    struct unit unit = { { (const uint8_t *)regions, sizeof regions }, boot_cpuid(&table), 64, SIGNATURE_LENGTH,
                         memory, sizeof memory };

    struct runnelpin_answer refusal = load_damaged(&unit, image, header);
    struct runnelpin_answer answer = boot_load(&unit, image, header);
    if (answer.code != RUNNELPIN_DONE)
        end(answer.code);
    if (!is_refused(refusal, header))
        end(STATUS_DAMAGED);
    if (!boot_is_ram(unit.map, answer.entry))
        end(STATUS_ENTRY);
    place_regions();
    boot_hand_off(answer.entry);
}
