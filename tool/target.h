/* Where a result is to go, which is found out before the work. */
#ifndef TARGET_H
#define TARGET_H

#include <sys/types.h>

struct target {
    const char *path; /* as the user has it */
    int standard;     /* the descriptor that it is open as already; 0 where it is none */
    const char *file; /* the file that is made or replaced; NULL for what is written to directly */
    mode_t mode;
    uid_t owner; /* -1, as the group, where nobody's is to be kept */
    gid_t group;
};

/* Gives 0, or -1 where it can't be written, for the reason in errno. */
int find_target(struct target *target, const char *path);

/*
 * Gives a new file the target's owner, group and mode. The writer may not be able to give it to others; then another
 * group gets no rights.
 */
int set_rights(int file, const struct target *target);

#endif
