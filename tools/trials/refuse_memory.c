/* A `malloc` before the C library's that refuses one request for memory: the one whose number, from 1, stands in
   REFUSE_REQUEST. The file that REFUSE_TOLD names is told how many requests there were, and how many were refused,
   as two numbers of 8 bytes. */
#include <errno.h>
#include <fcntl.h>
#include <stddef.h>
#include <stdint.h>
#include <stdlib.h>
#include <sys/mman.h>
#include <unistd.h>

extern void *__libc_malloc(size_t);
extern void *__libc_calloc(size_t, size_t);
extern void *__libc_realloc(void *, size_t);

static uint64_t nowhere[2];
static uint64_t *told;
static uint64_t refused_number;

/* Reads the environment, before the first request. */
static void start(void)
{
    const char *number = getenv("REFUSE_REQUEST");
    const char *path = getenv("REFUSE_TOLD");
    int file = path == NULL ? -1 : open(path, O_RDWR | O_CLOEXEC);
    void *shared = MAP_FAILED;
    if (file >= 0) {
        shared = mmap(NULL, sizeof nowhere, PROT_READ | PROT_WRITE, MAP_SHARED, file, 0);
        close(file);
    }
    told = shared == MAP_FAILED ? nowhere : shared;
    while (number != NULL && *number >= '0' && *number <= '9')
        refused_number = refused_number * 10 + (uint64_t)(*number++ - '0');
}

/* Whether this request is the one to refuse. */
static int is_refused(void)
{
    if (told == NULL)
        start();
    told[0] += 1;
    if (told[0] != refused_number)
        return 0;
    told[1] += 1;
    errno = ENOMEM;
    return 1;
}

void *malloc(size_t size)
{
    return is_refused() ? NULL : __libc_malloc(size);
}

void *calloc(size_t count, size_t size)
{
    return is_refused() ? NULL : __libc_calloc(count, size);
}

void *realloc(void *block, size_t size)
{
    return is_refused() ? NULL : __libc_realloc(block, size);
}
