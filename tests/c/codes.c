/*
 * Holds the table of codes to lists taken by hand from docs/FORMAT.md: the calls that give a code, what its place
 * counts, whether memory or output may have changed.
 */
#include "codes.h"
#include "expect.h"
#include "runnelpin.h"

enum { CODES = RUNNELPIN_OUTPUT_LENGTH + 1 };

/* Sets of codes, as bits. */
static uint64_t given[BY_PACK + 1], placed[FILE_LENGTH + 1], leaving[MAY_CHANGE + 1];

static void sort_codes(void)
{
    for (uint64_t i = 0; i < CODES; i++) {
        const struct code *code = code_of(i);
        for (int call = BY_LOAD; call <= BY_PACK; call *= 2)
            given[call] |= (uint64_t)((code->calls & call) != 0) << i;
        placed[code->place_kind] |= UINT64_C(1) << i;
        leaving[code->effect] |= UINT64_C(1) << i;
        expect("a code's words", *code->name && *code->meaning, 1);
    }
}

static uint64_t from_to(int first, int last)
{
    return (UINT64_C(2) << last) - (UINT64_C(1) << first);
}

static uint64_t only(int code)
{
    return from_to(code, code);
}

int main(void)
{
    sort_codes();
    expect("load", given[BY_LOAD], from_to(0, 27));
    expect("run", given[BY_RUN], from_to(0, 3) | from_to(16, 27));
    expect("open", given[BY_OPEN], from_to(0, 1) | from_to(4, 15) | only(29));
    expect("pack", given[BY_PACK], from_to(0, 1) | only(6) | only(11) | from_to(28, 29));

    expect("no place", placed[NO_PLACE], from_to(0, 12) | only(16) | from_to(28, 29));
    expect("a block", placed[BLOCK_NUMBER], from_to(13, 15));
    expect("a command", placed[FILE_OFFSET], from_to(17, 26));
    expect("the file's length", placed[FILE_LENGTH], only(27));

    expect("no change", leaving[UNCHANGED], from_to(1, 12) | only(16) | from_to(28, 29));
    expect("a change", leaving[MAY_CHANGE], only(0) | from_to(13, 15) | from_to(17, 27));

    expect("a number behind the last code", code_of(CODES) == NULL, 1);
    expect("the highest number", code_of(UINT64_MAX) == NULL, 1);
    return end();
}
