/* Control: a loader that answers with a code that a load does not give. */
#include "boot.h"

struct runnelpin_answer __wrap_boot_load(const struct unit *unit, struct slice image, struct slice header);

struct runnelpin_answer __wrap_boot_load(const struct unit *unit, struct slice image, struct slice header)
{
    (void)unit, (void)image, (void)header;
    return (struct runnelpin_answer){ .code = RUNNELPIN_EMPTY_FILE };
}
