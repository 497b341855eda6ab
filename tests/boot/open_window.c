/* Control: a stub that lends one run of memory, from the first region on and through the holes. */
#include "window.h"

uint8_t *__wrap_open_window(const struct regions *regions);
uint8_t *__real_open_window(const struct regions *regions);

uint8_t *__wrap_open_window(const struct regions *regions)
{
    static struct regions run;
    run.map[0][0] = regions->map[0][0];
    run.map[0][1] = regions->length;
    run.count = 1;
    return __real_open_window(&run);
}
