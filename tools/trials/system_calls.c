/* A program of tools/make/system.c, without headers: it prints its words, as far as they fit in four bytes, and ends with the number
 * of the first call that is not as it should be, or 0. */
typedef __SIZE_TYPE__ size_t;
typedef __INTPTR_TYPE__ ssize_t;
struct tried {
    _Bool ok;
    char *at;
};

size_t rattle_arg_count(void);
ssize_t rattle_arg(size_t, char *, size_t);
ssize_t rattle_env_at(size_t, char *, size_t);
ssize_t rattle_env(const char *, char *, size_t);
struct tried rattle_alloc(size_t, size_t);
struct tried rattle_realloc(void *, size_t, size_t, size_t);
void rattle_dealloc(void *);
int rattle_errno(void);
void rattle_set_errno(int);
ssize_t write(int, const void *, size_t);

static int memory(void)
{
    struct tried block = rattle_alloc(16, 8), none = rattle_alloc(0, 16), huge = rattle_alloc((size_t)1 << 60, 8);
    if (!block.ok || !block.at || (size_t)block.at % 16) return 1;
    if (!none.ok || !none.at) return 2;
    if (huge.ok || !huge.at || rattle_errno() != 12) return 3;
    for (int k = 0; k < 16; k++) block.at[k] = (char)k;
    huge = rattle_realloc(block.at, 16, (size_t)1 << 60, 8);
    if (huge.ok || block.at[15] != 15) return 4;
    block = rattle_realloc(block.at, 16, 100000, 8);
    if (!block.ok || block.at[15] != 15) return 5;
    rattle_dealloc(block.at);
    rattle_dealloc(none.at);
    rattle_set_errno(34);
    return rattle_errno() == 34 ? 0 : 6;
}

/* The environment is ABC=de and nothing else. */
static int environment(void)
{
    char held[6];
    if (rattle_env_at(0, held, 6) != 6 || held[5] != 'e' || rattle_env_at(0, held, 5) != -2) return 8;
    if (rattle_env_at(1, held, 6) != -1 || rattle_env_at(9, held, 6) != -1) return 9;
    if (rattle_env("ABC", held, 6) != 2 || held[0] != 'd' || rattle_env("ABC", held, 1) != -2) return 10;
    return rattle_env("AB", held, 6) == -1 && rattle_env("ABCD", held, 6) == -1 ? 0 : 11;
}

static int wide(void)
{
    volatile unsigned __int128 large = ((unsigned __int128)1 << 100) + 12345, small = 1000003;
    return large / small * small + large % small == large && large % small < small && (unsigned)(large % 10) == 1 ? 0 : 12;
}

int main(int count, char **words)
{
    char held[4];
    if ((size_t)count != rattle_arg_count() || rattle_arg((size_t)count, held, 4) != -1 || words[count]) return 7;
    for (int k = 1; k < count; k++) {
        ssize_t length = rattle_arg((size_t)k, held, 4);
        write(1, held, length == -2 ? 4 : (size_t)length);
        write(1, length == -2 ? "+" : ".", 1);
    }
    int wrong = memory();
    wrong = wrong ? wrong : environment();
    return wrong ? wrong : wide();
}
