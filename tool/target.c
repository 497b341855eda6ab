#define _DEFAULT_SOURCE /* realpath, fchown, fchmod, S_ISREG */
#include "target.h"

#include "fail.h"
#include "files.h"

#include <errno.h>
#include <stdlib.h>
#include <unistd.h>

/* Whether the target is what the descriptor leads to. A device that is no terminal takes several writers. */
static int is_open_as(int descriptor, const struct stat *target)
{
    struct stat about;
    return !fstat(descriptor, &about) && is_one_file(&about, target) &&
           (!S_ISCHR(about.st_mode) || isatty(descriptor));
}

static int standard_descriptor(const struct stat *target)
{
    if (is_open_as(STDOUT_FILENO, target))
        return STDOUT_FILENO;
    return is_open_as(STDERR_FILENO, target) ? STDERR_FILENO : 0;
}

/* A file that isn't there yet, as errno says. */
static int make_target(struct target *t)
{
    struct stat about;
    if (errno != ENOENT)
        return -1;
    if (!lstat(t->path, &about)) /* it is left alone */
        fail("%s: can't be written: it is a link to a file that does not exist", t->path);
    mode_t mask = umask(0);
    umask(mask);
    t->file = t->path;
    t->mode = 0666 & ~mask;
    t->owner = (uid_t)-1;
    t->group = (gid_t)-1;
    return 0;
}

/* A file that is there; where the path is a link, the one that it leads to. */
static int keep_target(struct target *t, const struct stat *about)
{
    t->file = realpath(t->path, NULL);
    t->mode = about->st_mode & 0777; /* not set-user-ID: the new file's owner may be another */
    t->owner = about->st_uid;
    t->group = about->st_gid;
    return t->file ? access(t->file, W_OK) : -1;
}

int find_target(struct target *t, const char *path)
{
    struct stat about;
    *t = (struct target){.path = path, .standard = path == standard_output ? STDOUT_FILENO : 0};
    if (t->standard)
        return 0;
    if (stat(path, &about))
        return make_target(t);
    if (S_ISDIR(about.st_mode)) { /* said before the work, not behind it */
        errno = EISDIR;
        return -1;
    }
    t->standard = standard_descriptor(&about);
    return !t->standard && S_ISREG(about.st_mode) ? keep_target(t, &about) : 0;
}

int set_rights(int file, const struct target *t)
{
    mode_t others = 0;
    if (fchown(file, t->owner, t->group) && fchown(file, (uid_t)-1, t->group))
        others = 0070;
    return fchmod(file, t->mode & ~others);
}
