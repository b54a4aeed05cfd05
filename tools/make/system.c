/* What the toolchain's C part (libos_c.a, liblibc_c.a) is for x86-64, for another machine: the calls of the program's system layer that
 * are not the C library's own, and the start of the program. Their contracts are in the toolchain's crates os and libc. It is compiled
 * without headers, so that the same sources give the same bytes everywhere. */
typedef __SIZE_TYPE__ size_t;
typedef __INTPTR_TYPE__ ssize_t;

void *malloc(size_t);
void *realloc(void *, size_t);
void free(void *);
int *__errno_location(void);
int __libc_start_main(int (*)(int, char **, char **), int, char **, void (*)(void), void (*)(void), void (*)(void), void *);
int main(int, char **, char **);

/* A block, or none: then the pointer is to no byte, and not NULL. */
struct tried {
    size_t ok;
    void *at;
};

static size_t none[2];

static struct tried of(void *block)
{
    return (struct tried){block != 0, block ? block : none};
}

struct tried rattle_alloc(size_t size, size_t align)
{
    return of(malloc(size ? size : align));
}

struct tried rattle_realloc(void *old, size_t kept, size_t size, size_t align)
{
    (void)kept;
    return of(realloc(old, size ? size : align));
}

void rattle_dealloc(void *block)
{
    free(block);
}

int rattle_errno(void)
{
    return *__errno_location();
}

void rattle_set_errno(int error)
{
    *__errno_location() = error;
}

/* The words of the program, and behind a NULL those of its environment. */
static size_t count;
static char **words;

size_t rattle_arg_count(void)
{
    return count;
}

/* Copies a text, without the zero byte at its end: its length, -1 if there is none, -2 if there is no room for it. */
static ssize_t copied(const char *text, char *out, size_t room)
{
    if (!text) return -1;
    size_t length = 0;
    for (; text[length]; length++) {
        if (length == room) return -2;
        out[length] = text[length];
    }
    return (ssize_t)length;
}

ssize_t rattle_arg(size_t number, char *out, size_t room)
{
    return copied(number < count ? words[number] : 0, out, room);
}

ssize_t rattle_env_at(size_t number, char *out, size_t room)
{
    char **entry = words + count + 1;
    while (*entry && number--) entry++;
    return copied(*entry, out, room);
}

ssize_t rattle_env(const char *name, char *out, size_t room)
{
    for (char **entry = words + count + 1; *entry; entry++) {
        size_t length = 0;
        while (name[length] && name[length] == (*entry)[length]) length++;
        if (!name[length] && (*entry)[length] == '=') return copied(*entry + length + 1, out, room);
    }
    return -1;
}

/* What the C compiler's library has beside page/wide.c. */
unsigned __int128 __udivti3(unsigned __int128, unsigned __int128);

unsigned __int128 __umodti3(unsigned __int128 left, unsigned __int128 right)
{
    return left - __udivti3(left, right) * right;
}

/* The system starts a program with the count of its words and then their addresses on the stack. */
static __attribute__((noreturn, used)) void begin(size_t *stack, void (*at_end)(void))
{
    count = stack[0];
    words = (char **)(stack + 1);
    __libc_start_main(main, (int)count, words, 0, 0, at_end, stack);
    __builtin_trap();
}

__attribute__((naked, noreturn)) void rattle_start(void)
{
    __asm__("mov x29, #0\n\tmov x30, #0\n\tmov x1, x0\n\tmov x0, sp\n\tb %c0" : : "i"(begin));
}
