/* A program with a planted fault. With PROGRAM and LIBRARY this becomes PROGRAM with LIBRARY in it; else it is that library: a `write` that
   puts INSTEAD where the replies say SAID, with FILES one that turns the last bit of what it writes to a file, or with TORN a `rename` that
   writes over the old file. */
#define _GNU_SOURCE
#include <fcntl.h>
#include <stdio.h>
#include <stdlib.h>
#include <string.h>
#include <sys/syscall.h>
#include <unistd.h>

#ifdef PROGRAM
int main(int count, char **words)
{
    const char *before = getenv("LD_PRELOAD");
    static char libraries[8192];
    snprintf(libraries, sizeof libraries, "%s:%s", LIBRARY, before == NULL ? "" : before);
    setenv("LD_PRELOAD", libraries, 1);
    (void)count;
    execv(PROGRAM, words);
    return 127;
}
#else
static int put(int file, const char *bytes, size_t size)
{
    while (size > 0) {
        long written = syscall(SYS_write, file, bytes, size);
        if (written < 0)
            return 0;
        bytes += written;
        size -= written;
    }
    return 1;
}

#ifdef TORN
int rename(const char *from, const char *to)
{
    static char bytes[4096];
    int old = open(from, O_RDONLY), new = open(to, O_WRONLY | O_CREAT | O_TRUNC, 0666);
    for (long size; (size = syscall(SYS_read, old, bytes, sizeof bytes)) > 0;)
        put(new, bytes, size);
    close(old);
    close(new);
    return unlink(from);
}
#else
ssize_t write(int file, const void *bytes, size_t size)
{
    const char *rest = bytes, *end = rest + size, *found;
#ifdef FILES
    if (file > 2 && size > 1) {
        char last = end[-1] ^ 1;
        return put(file, rest, size - 1) && put(file, &last, 1) ? (ssize_t)size : -1;
    }
    return syscall(SYS_write, file, rest, size);
#else
    while (file == 1 && (found = memmem(rest, end - rest, SAID, strlen(SAID))) != NULL) {
        if (!put(file, rest, found - rest) || !put(file, INSTEAD, strlen(INSTEAD)))
            return -1;
        rest = found + strlen(SAID);
    }
    return rest == bytes ? syscall(SYS_write, file, rest, size) : put(file, rest, end - rest) ? (ssize_t)size : -1;
#endif
}
#endif
#endif
