#include "kinds.h"

static const struct kind kinds[] = {
    { "write", COMMAND_WRITE, COMMAND_WRITE, 8, UINT64_MAX, 8 },
    { "fill", COMMAND_FILL, COMMAND_FILL, 24, 24, 24 },
    { "entry", COMMAND_ENTRY, COMMAND_ENTRY, 8, 8, 8 },
    { "CPUID check", COMMAND_CHECK, COMMAND_CHECK, MOST_PARAMETERS, MOST_PARAMETERS, MOST_PARAMETERS },
    { "vendor command", 60000, 65535, 0, UINT64_MAX, 0 },
};

const struct kind *kind_of(uint64_t id)
{
    for (size_t i = 0; i < sizeof kinds / sizeof *kinds; i++)
        if (kinds[i].first_id <= id && id <= kinds[i].last_id)
            return &kinds[i];
    return NULL;
}
