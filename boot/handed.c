#include "handed.h"

#include "status.h"

#define PVH_MAGIC 0x336ec578u
#define MULTIBOOT2_MAGIC 0x36d76289u

/* In both protocols, and in the BIOS call that they have it from. */
enum { USABLE = 1 };

static const void *at(uint64_t address)
{
    return (const void *)(uintptr_t)address;
}

/* One that is longer than there is room for is cut, and its last word with it. */
static void copy_line(struct handed *handed, const char *line)
{
    size_t i = 0;
    for (; i < COMMAND_LINE_BYTES - 1 && line[i]; i++)
        handed->command_line[i] = line[i];
    handed->command_line[i] = 0;
}

static void take_module(struct handed *handed, uint64_t base, uint64_t length)
{
    handed->image.at = at(base);
    handed->image.length = length;
}

struct pvh_info {
    uint32_t magic, version, flags, modules;
    uint64_t module_list, command_line, acpi, map;
    uint32_t map_entries, reserved;
};

struct pvh_module {
    uint64_t base, length, command_line, reserved;
};

struct pvh_range {
    uint64_t base, length;
    uint32_t type, reserved;
};

/* The memory map came with version 1. */
static int take_pvh(const struct pvh_info *info, struct handed *handed)
{
    const struct pvh_module *modules = at(info->module_list);
    const struct pvh_range *ranges = at(info->map);

    handed->by = "PVH";
    if (info->magic != PVH_MAGIC || info->version < 1 || info->map_entries == 0)
        return END_PROTOCOL;
    for (uint32_t i = 0; i < info->map_entries; i++)
        add_range(&handed->ranges, ranges[i].base, ranges[i].length, ranges[i].type == USABLE);
    for (uint32_t i = 0; i < info->modules; i++)
        take_module(handed, modules[i].base, modules[i].length);
    if (info->command_line)
        copy_line(handed, at(info->command_line));
    return 0;
}

enum { TAG_END = 0, TAG_COMMAND_LINE = 1, TAG_MODULE = 3, TAG_MAP = 6, TAG_ALIGNMENT = 8 };

struct tag {
    uint32_t type, size;
};

struct module_tag {
    struct tag tag;
    uint32_t base, end;
};

struct map_tag {
    struct tag tag;
    uint32_t entry_size, entry_version;
};

static void take_map_tag(const struct map_tag *map, struct handed *handed)
{
    const uint8_t *entry = (const uint8_t *)(map + 1), *end = (const uint8_t *)map + map->tag.size;
    if (map->entry_size < sizeof(struct pvh_range))
        return;
    for (; entry + map->entry_size <= end; entry += map->entry_size) {
        const struct pvh_range *range = (const void *)entry; /* the same fields */
        add_range(&handed->ranges, range->base, range->length, range->type == USABLE);
    }
}

static void take_tag(const struct tag *tag, struct handed *handed)
{
    const struct module_tag *module = (const void *)tag;
    if (tag->type == TAG_COMMAND_LINE)
        copy_line(handed, (const char *)(tag + 1));
    else if (tag->type == TAG_MODULE)
        take_module(handed, module->base, module->end - module->base);
    else if (tag->type == TAG_MAP)
        take_map_tag((const void *)tag, handed);
}

/* Behind the total size and a reserved word come the tags, each aligned. */
static int take_multiboot2(const uint8_t *info, struct handed *handed)
{
    const uint8_t *next = info + 8, *end = info + *(const uint32_t *)info;

    handed->by = "multiboot2";
    while (next < end) {
        const struct tag *tag = (const void *)next;
        if (tag->type == TAG_END || tag->size < sizeof *tag)
            break;
        take_tag(tag, handed);
        next += (tag->size + TAG_ALIGNMENT - 1) / TAG_ALIGNMENT * TAG_ALIGNMENT;
    }
    return handed->ranges.count ? 0 : END_PROTOCOL;
}

int take_handed(uint32_t magic, uint64_t info, struct handed *handed)
{
    int number = magic == MULTIBOOT2_MAGIC ? take_multiboot2(at(info), handed) : take_pvh(at(info), handed);
    if (number == 0 && handed->ranges.overflowed)
        return END_RANGES;
    return number;
}
