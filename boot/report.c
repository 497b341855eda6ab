#include "report.h"

#include "layout.h"
#include "serial.h"
#include "stub.h"

static uint64_t address(const void *byte)
{
    return (uint64_t)(uintptr_t)byte;
}

void say_handed(const struct handed *handed, struct slice header)
{
    say("Runnelpin boot stub, started by ");
    say(handed->by);
    say("\nimage: ");
    say_number(handed->image.length);
    say(" bytes; approved header: ");
    say_number(header.length);
    say(" bytes\n");
}

/* How much more was left out, and from which address or leaf on. */
static void say_more(uint64_t count, const char *what, uint64_t from)
{
    say("; ");
    say_number(count);
    say(what);
    say_address(from);
}

static void say_left_out(const struct regions *regions, struct slice image)
{
    say("left out: page 0 and incomplete pages; the stub, ");
    say_range(address(stub_begin), address(stub_end));
    say("; the pages of the image, ");
    say_range(address(image.at), address(image.at + image.length));
    if (regions->left_out) {
        say_more(regions->left_out, " bytes of RAM from ", regions->left_out_from);
        say(" on");
    }
    say("\n");
}

void say_memory(const struct regions *regions, struct slice image)
{
    for (size_t i = 0; i < regions->count; i++) {
        say("RAM: ");
        say_range(regions->map[i][0], regions->map[i][0] + regions->map[i][1]);
        say("\n");
    }
    say_left_out(regions, image);
    say("lent: ");
    say_number(regions->length);
    say(" bytes, as one window at ");
    say_address(WINDOW_BASE);
    say("\n");
}

void say_cpuid(const struct cpuid_table *table)
{
    say("CPUID table: ");
    say_number(table->count);
    say(" records; left out: " CPUID_LEFT_OUT);
    if (table->left_out) {
        say_more(table->left_out, " records from leaf ", table->leaf);
        say(", sub-leaf ");
        say_number(table->sub_leaf);
        say(" on");
    }
    say("\n");
}
