/* Replaces the text of a file. */

#define _XOPEN_SOURCE 700

#include <errno.h>
#include <limits.h>
#include <stdio.h>
#include <stdlib.h>
#include <string.h>
#include <sys/stat.h>
#include <unistd.h>

#include "format/rewrite.h"

/* The new file's first name. A cron daemon that reads a whole directory skips names with a dot. */
static const char BESIDE[] = ".eremothyn.XXXXXX";

static bool write_all(int to, const struct file *text)
{
    uint64_t done = 0;
    while (done < text->length) {
        ssize_t more = write(to, text->bytes + done, text->length - done);
        if (more >= 0)
            done += (uint64_t)more;
        else if (errno != EINTR)
            return false;
    }
    return true;
}

/* Gives a new file the owner, the group and the mode of the old one. */
static bool copy_owner_and_mode(int new, const struct stat *old)
{
    struct stat status;
    if (fstat(new, &status) != 0)
        return false;
    bool is_owned = status.st_uid == old->st_uid && status.st_gid == old->st_gid;
    if (!is_owned && fchown(new, old->st_uid, old->st_gid) != 0)
        return false;
    return fchmod(new, old->st_mode & 07777) == 0;
}

/* Creates a new file next to an absolute path, and sets its name. */
static int create_beside(const char *path, char name[PATH_MAX + sizeof BESIDE])
{
    size_t folder = (size_t)(strrchr(path, '/') - path) + 1;
    memcpy(name, path, folder);
    memcpy(name + folder, BESIDE, sizeof BESIDE);
    return mkstemp(name);
}

static bool replace(const char *path, const struct stat *old, const struct file *text)
{
    char name[PATH_MAX + sizeof BESIDE];
    int new = create_beside(path, name);
    if (new < 0)
        return false;
    bool done = copy_owner_and_mode(new, old) && write_all(new, text) && fsync(new) == 0;
    int why = errno;
    if (close(new) != 0 && done) {
        done = false;
        why = errno;
    }
    if (done && rename(name, path) == 0)
        return true;
    if (done)
        why = errno;
    unlink(name);
    errno = why;
    return false;
}

const char *rewrite(const char *name, const struct file *text)
{
    char path[PATH_MAX];
    struct stat old;
    if (realpath(name, path) == NULL || stat(path, &old) != 0)
        return strerror(errno);
    if (!S_ISREG(old.st_mode))
        return "Not a regular file";
    /* A file that may not be written isn't replaced, either. */
    if (access(path, W_OK) != 0)
        return strerror(errno);
    return replace(path, &old, text) ? NULL : strerror(errno);
}
