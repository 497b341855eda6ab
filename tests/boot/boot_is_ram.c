/* Control: a stub that asks for more of a C library than it has. The linker refuses it. */
#include "boot.h"

int __wrap_boot_is_ram(struct slice map, uint64_t address);
int memcmp(const void *, const void *, unsigned long);

int __wrap_boot_is_ram(struct slice map, uint64_t address)
{
    return memcmp(map.at, &address, map.length);
}
