/* How the C tests judge and count. */
#ifndef EXPECT_H
#define EXPECT_H

#include <stdint.h>
#include <stdio.h>

static int passed, failed;

static void expect(const char *what, uint64_t found, uint64_t wanted)
{
    if (found == wanted) {
        passed++;
        return;
    }
    failed++;
    printf("%s: %llu, and not %llu\n", what, (unsigned long long)found, (unsigned long long)wanted);
}

/* The exit status. */
static int end(void)
{
    printf("%d passed, %d failed\n", passed, failed);
    return failed != 0;
}

#endif
