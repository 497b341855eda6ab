/* The options by name. */
#ifndef OPTIONS_H
#define OPTIONS_H

/* In the order in which usage lines have them. */
enum option {
    OPTION_HEADER,
    OPTION_MAP,
    OPTION_OUTPUT,
    OPTION_HASH,
    OPTION_BLOCK,
    OPTION_SIGNATURE,
    OPTION_CPUID,
    OPTION_MODE,
    OPTION_MEMORY,
    OPTION_PARTIAL,
    OPTION_JSON,
    OPTION_HELP,
    OPTION_VERSION,
    OPTIONS
};

#define TAKES(name) (1u << OPTION_##name)

struct option_form {
    const char *name, *letter; /* NULL where it has no second name, of one letter */
    const char *value;         /* NULL where it stands alone */
    const char *meaning;       /* in lines that fit behind the names */
};

extern const struct option_form options[OPTIONS];

/* What an option means to a verb. */
const char *option_meaning(enum option option, const char *verb);

#endif
