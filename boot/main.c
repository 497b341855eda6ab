/* The stub as a whole: what was handed over, what is lent, the load, and on 0 only the hand-off. */
#include "answer.h"
#include "approved.h"
#include "boot.h"
#include "codes.h"
#include "depth.h"
#include "handed.h"
#include "layout.h"
#include "report.h"
#include "serial.h"
#include "status.h"
#include "stub.h"
#include "window.h"

static struct handed handed;
static struct regions regions;
static struct cpuid_table table;

__attribute__((noreturn)) static void refuse(uint8_t number, const char *why)
{
    say("stub: ");
    say(why);
    say("\n");
    end(number);
}

static int is_mapped(struct slice image)
{
    uint64_t base = (uint64_t)(uintptr_t)image.at;
    return image.length && base < IDENTITY_LIMIT && image.length <= IDENTITY_LIMIT - base;
}

/* Everything that stands in memory and is not in the stub or the image is copied here, before memory is lent. */
static struct slice take(uint32_t magic, uint64_t info)
{
    int number = take_handed(magic, info, &handed);
    struct slice header = approved_header(handed.command_line);

    if (number == END_PROTOCOL)
        refuse(END_PROTOCOL, "no memory map: start the stub with PVH or multiboot2");
    if (number)
        refuse(END_RANGES, "the memory map has too many ranges");
    if (!is_mapped(handed.image))
        refuse(END_MODULE, "no image: give one as a boot module");
    if (!header.length)
        refuse(END_HEADER, "no approved header: give header=HEX on the command line");
    say_handed(&handed, header);
    return header;
}

static void find_memory(void)
{
    uint64_t begin = (uint64_t)(uintptr_t)stub_begin, length = (uint64_t)(stub_end - stub_begin);
    uint64_t image = (uint64_t)(uintptr_t)handed.image.at;

    /* Not every boot loader looks. What is written past the end of RAM reads as zeros, the answer 0 among them. */
    if (!is_all_usable(&handed.ranges, begin, length))
        refuse(END_ROOM, "not enough RAM for the stub itself");
    add_range(&handed.ranges, 0, PAGE, 0);
    add_range(&handed.ranges, begin, length, 0);
    if (!is_all_usable(&handed.ranges, image, handed.image.length))
        refuse(END_ROOM, "the image is not entirely in free RAM");
    add_range(&handed.ranges, image, handed.image.length, 0);
    if (handed.ranges.overflowed)
        refuse(END_RANGES, "the memory map has too many ranges");
    find_regions(&handed.ranges, &regions);
    say_memory(&regions, handed.image);
}

static struct slice map(void)
{
    return (struct slice){ (const uint8_t *)regions.map, regions.count * sizeof *regions.map };
}

static struct runnelpin_answer load(struct slice header)
{
    /* The signature length is the one that the chip approved with the rest of the header. */
    struct unit unit = { map(), boot_cpuid(&table), MODE,
                         runnelpin_stated_signature_length(header.at, header.length), open_window(&regions),
                         regions.length };
    uint8_t *pointer = stack_pointer();
    struct runnelpin_answer answer;

    say_cpuid(&table);
    paint_stack(pointer);
    answer = boot_load(&unit, handed.image, header);
    say("stack used by the call: ");
    say_number(stack_used(pointer));
    say(" bytes\n");
    say_answer(answer, handed.image);
    return answer;
}

void boot(uint32_t magic, uint64_t info)
{
    struct slice header;
    struct runnelpin_answer answer;
    const struct code *code;

    open_serial();
    header = take(magic, info);
    find_memory();
    answer = load(header);
    code = code_of(answer.code);
    if (!code || !(code->calls & BY_LOAD))
        refuse(END_CODE, "this is not a code that a load can give");
    if (answer.code != RUNNELPIN_DONE)
        end((uint8_t)answer.code);
    if (!boot_is_ram(map(), answer.entry))
        refuse(END_ENTRY, "the entry is not in the lent RAM");
    say("entering\n");
    drop_window();
    boot_hand_off(answer.entry);
}
