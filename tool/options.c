#include "options.h"

#include "image.h"

#include <stddef.h>
#include <string.h>

const struct option_form options[OPTIONS] = {
    [OPTION_HEADER] = {"--header", NULL, "FILE", "the approved header"},
    [OPTION_MAP] = {"--map", NULL, "FILE", "the memory map: base and length of a region on each line"},
    [OPTION_OUTPUT] = {"-o", NULL, "FILE", "where to write the result; - is standard output"},
    [OPTION_HASH] = {"--hash", NULL, "NAMES", "up to four of " HASH_NAMES ",\n"
                                              "separated by commas (default: sha512)"},
    [OPTION_BLOCK] = {"--block", NULL, "BYTES", "the block size, at most 1048576 (default: 65536)"},
    [OPTION_SIGNATURE] = {"--signature", NULL, "BYTES", "the signature length to expect (default: the header's)"},
    [OPTION_CPUID] = {"--cpuid", NULL, "FILE|host", "the CPUID table: six numbers on each line, or this\n"
                                                    "machine's (default: none, so every check is refused)"},
    [OPTION_MODE] = {"--mode", NULL, "32|64", "the addressing mode (default: 64)"},
    [OPTION_MEMORY] = {"--memory", NULL, "FILE", "what memory holds before the run (default: zeros)"},
    [OPTION_PARTIAL] = {"--partial", NULL, NULL, "on a refusal, write what was proved or stored before it"},
    [OPTION_JSON] = {"--json", NULL, NULL, "print the answer as JSON, errors too"},
    [OPTION_HELP] = {"--help", "-h", NULL, "print this"},
    [OPTION_VERSION] = {"--version", "-V", NULL, "print the version"},
};

static const char memory_after[] = "where to write what memory holds after the run; - is\n"
                                   "standard output (default: nowhere)";

/* What an option means to one verb only. */
static const struct {
    const char *verb;
    enum option option;
    const char *meaning;
} special[] = {
    {"pack", OPTION_SIGNATURE, "the length of the signature field, 1 to 4096\n(default: 512)"},
    {"signature", OPTION_HEADER,
     "the approved header; before it is approved, the one that\n'runnelpin header' extracts"},
    {"load", OPTION_OUTPUT, memory_after},
    {"run", OPTION_OUTPUT, memory_after},
    {"show", OPTION_MAP, "the memory map; show then says if the entry is outside it\n(default: none)"},
};

const char *option_meaning(enum option option, const char *verb)
{
    for (size_t i = 0; i < sizeof special / sizeof *special; i++)
        if (special[i].option == option && !strcmp(special[i].verb, verb))
            return special[i].meaning;
    return options[option].meaning;
}
