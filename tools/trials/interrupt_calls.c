/* Calls before the C library's that fail so many times by EINTR before each that does something: INTERRUPT_TIMES says how many. Where
   INTERRUPT_AGAIN is set reads alone fail, by EAGAIN. */
#define _GNU_SOURCE
#include <errno.h>
#include <fcntl.h>
#include <stdlib.h>
#include <sys/stat.h>
#include <sys/syscall.h>
#include <unistd.h>

enum { READ, WRITE, RENAME, SYNC, LOOK, KINDS };
static long left[KINDS];

/* Whether this call is one to fail. */
static int is_interrupted(int kind)
{
    const char *times = getenv("INTERRUPT_TIMES");
    int again = getenv("INTERRUPT_AGAIN") != NULL;
    if (again && kind != READ)
        return 0;
    if (left[kind] < (times == NULL ? 0 : atol(times))) {
        left[kind] += 1;
        errno = again ? EAGAIN : EINTR;
        return 1;
    }
    left[kind] = 0;
    return 0;
}

ssize_t read(int file, void *bytes, size_t size)
{
    return is_interrupted(READ) ? -1 : syscall(SYS_read, file, bytes, size);
}

ssize_t write(int file, const void *bytes, size_t size)
{
    return is_interrupted(WRITE) ? -1 : syscall(SYS_write, file, bytes, size);
}

int rename(const char *from, const char *to)
{
    return is_interrupted(RENAME) ? -1 : syscall(SYS_renameat2, AT_FDCWD, from, AT_FDCWD, to, 0);
}

int fsync(int file)
{
    return is_interrupted(SYNC) ? -1 : syscall(SYS_fsync, file);
}

/* Looks by a path; one at an open file goes through, as no system interrupts it. */
int statx(int folder, const char *path, int flags, unsigned mask, struct statx *found)
{
    return is_interrupted(LOOK) ? -1 : syscall(SYS_statx, folder, path, flags, mask, found);
}
