/* Calls before the C library's on what lies in one folder, which STORE_FOLDER names. Each is written to the file that STORE_LOG names, as its kind
   and the name in the folder. The one whose number is STORE_FAILS, counted from 0, fails with the error STORE_ERROR. What STORE_SWAP names takes
   the place of a file just before the file is opened. */
#define _GNU_SOURCE
#include <errno.h>
#include <fcntl.h>
#include <limits.h>
#include <stdarg.h>
#include <stdio.h>
#include <stdlib.h>
#include <string.h>
#include <sys/file.h>
#include <sys/stat.h>
#include <sys/syscall.h>
#include <unistd.h>

enum { MOST_FILES = 1024 };
static char names[MOST_FILES][NAME_MAX + 1];
static long calls;

/* The name that a path has in the folder, "." for the folder itself, or NULL where it lies elsewhere. */
static const char *name_in(const char *path)
{
    const char *folder = getenv("STORE_FOLDER");
    size_t length = folder == NULL ? 0 : strlen(folder);
    if (length == 0 || strncmp(path, folder, length) != 0)
        return NULL;
    if (path[length] == '/')
        return path + length + 1;
    return path[length] == '\0' ? "." : NULL;
}

static const char *name_of(int file)
{
    return file >= 0 && file < MOST_FILES && names[file][0] != '\0' ? names[file] : NULL;
}

static void write_to_log(const char *kind, const char *name)
{
    char line[2 * NAME_MAX];
    const char *log = getenv("STORE_LOG");
    if (log == NULL)
        return;
    int length = snprintf(line, sizeof line, "%s %s\n", kind, name);
    long file = syscall(SYS_openat, AT_FDCWD, log, O_WRONLY | O_APPEND | O_CREAT, 0666);
    syscall(SYS_write, file, line, length);
    syscall(SYS_close, file);
}

/* Counts a call in the folder, and says whether it is the one to fail. */
static int fails(const char *kind, const char *name)
{
    const char *number = getenv("STORE_FAILS");
    if (name == NULL)
        return 0;
    write_to_log(kind, name);
    if (number == NULL || calls++ != atol(number))
        return 0;
    errno = atoi(getenv("STORE_ERROR"));
    return 1;
}

int open(const char *path, int flags, ...)
{
    const char *name = name_in(path);
    va_list more;
    va_start(more, flags);
    unsigned mode = flags & O_CREAT ? va_arg(more, unsigned) : 0;
    va_end(more);
    if (fails("open", name))
        return -1;
    if (name != NULL && getenv("STORE_SWAP") != NULL)
        syscall(SYS_renameat2, AT_FDCWD, getenv("STORE_SWAP"), AT_FDCWD, path, 0);
    long file = syscall(SYS_openat, AT_FDCWD, path, flags, mode);
    if (name != NULL && file >= 0 && file < MOST_FILES)
        snprintf(names[file], sizeof names[file], "%s", name);
    return file;
}

int close(int file)
{
    if (name_of(file) != NULL)
        names[file][0] = '\0';
    return syscall(SYS_close, file);
}

int statx(int folder, const char *path, int flags, unsigned mask, struct statx *found)
{
    int is_open = path[0] == '\0';
    if (fails(is_open ? "look-open" : "look", is_open ? name_of(folder) : name_in(path)))
        return -1;
    return syscall(SYS_statx, folder, path, flags, mask, found);
}

ssize_t read(int file, void *bytes, size_t size)
{
    return fails("read", name_of(file)) ? -1 : syscall(SYS_read, file, bytes, size);
}

ssize_t write(int file, const void *bytes, size_t size)
{
    return fails("write", name_of(file)) ? -1 : syscall(SYS_write, file, bytes, size);
}

int fsync(int file)
{
    return fails("sync", name_of(file)) ? -1 : syscall(SYS_fsync, file);
}

int flock(int file, int how)
{
    return fails("lock", name_of(file)) ? -1 : syscall(SYS_flock, file, how);
}

int fchown(int file, uid_t owner, gid_t group)
{
    return fails("group", name_of(file)) ? -1 : syscall(SYS_fchown, file, owner, group);
}

int fchmod(int file, mode_t mode)
{
    return fails("mode-open", name_of(file)) ? -1 : syscall(SYS_fchmod, file, mode);
}

int chmod(const char *path, mode_t mode)
{
    return fails("mode", name_in(path)) ? -1 : syscall(SYS_fchmodat, AT_FDCWD, path, mode);
}

int rename(const char *from, const char *to)
{
    return fails("rename", name_in(from)) ? -1 : syscall(SYS_renameat2, AT_FDCWD, from, AT_FDCWD, to, 0);
}

int unlink(const char *path)
{
    return fails("remove", name_in(path)) ? -1 : syscall(SYS_unlinkat, AT_FDCWD, path, 0);
}
