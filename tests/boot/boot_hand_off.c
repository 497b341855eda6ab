/* Control: a stub that jumps with its registers as they are. */
#include "boot.h"

void __wrap_boot_hand_off(uint64_t entry);

void __wrap_boot_hand_off(uint64_t entry)
{
    ((void (*)(void))(uintptr_t)entry)();
}
