/* Makes each call of the library, with valid and with invalid arguments, and aborts if a result is not as bench.h says. It is linked
 * with --wrap=malloc --wrap=realloc. Given a number, it refuses the request for memory with that number: then one call may be out of
 * memory, and has changed nothing. */
#include <bench.h>
#include <assert.h>
#include <stdint.h>
#include <stdio.h>
#include <stdlib.h>
#include <string.h>

static long left;
static int refused;
static struct bench_handle bench;
static char reply[1 << 20];
static size_t length;

void *__real_malloc(size_t size);
void *__real_realloc(void *at, size_t size);

static int refuses(void)
{
    if (left == 0 || --left != 0) return 0;
    refused = 1;
    return 1;
}

void *__wrap_malloc(size_t size)
{
    return refuses() ? NULL : __real_malloc(size);
}

void *__wrap_realloc(void *at, size_t size)
{
    return refuses() ? NULL : __real_realloc(at, size);
}

static int replies(const char *text)
{
    assert(bench_reply(&bench, reply, sizeof reply, &length) == BENCH_OK);
    return length == strlen(text) && memcmp(reply, text, length) == 0;
}

/* A line is answered like this. If memory is refused meanwhile it may be refused; then it is sent again. */
static void answered(const char *line, int status, const char *text)
{
    int before = refused, result = bench_answer(&bench, line, strlen(line));
    if (!before && refused && result == BENCH_REFUSED && replies("no E40 out of memory")) result = bench_answer(&bench, line, strlen(line));
    assert(result == status && replies(text));
}

static void put(const char *name, const char *front, const char *items)
{
    int before = refused, result = bench_put(&bench, name, strlen(name), front, strlen(front), items, strlen(items));
    if (!before && refused && result == BENCH_NO_MEMORY) result = bench_put(&bench, name, strlen(name), front, strlen(front), items, strlen(items));
    assert(result == BENCH_OK);
}

static void has(const char *name, const char *bytes)
{
    assert(bench_get(&bench, name, strlen(name), reply, sizeof reply, &length) == BENCH_OK);
    assert(length == strlen(bytes) && memcmp(reply, bytes, length) == 0);
}

static void next(const char *name, const char *after)
{
    int status = bench_file(&bench, name, strlen(name), reply, sizeof reply, &length);
    assert(status == (*after ? BENCH_OK : BENCH_NO_FILE) && length == strlen(after) && memcmp(reply, after, length) == 0);
}

static void opened(void)
{
    int result = bench_open(2, &bench);
    if (refused && result == BENCH_NO_MEMORY) {
        assert(bench.at == NULL);
        result = bench_open(2, &bench);
    }
    assert(result == BENCH_OK && bench.at != NULL);
}

static void commands(void)
{
    answered("a = arange <i4 0 6 1", BENCH_OK, "ok a <i4 (6,) new");
    answered("m = reshape a (2,3)", BENCH_OK, "ok m <i4 (2, 3) view");
    answered("set m[0,::-1] = 7", BENCH_OK, "ok set 3");
    answered("print a", BENCH_OK, "[7 7 7 3 4 5]");
    answered("# nothing", BENCH_NOTHING, "");
    answered("", BENCH_NOTHING, "");
    answered("print b", BENCH_REFUSED, "no E06 unknown name");
    answered("save a \"a.npy\"", BENCH_OK, "ok save 152");
    answered("b = load \"a.npy\"", BENCH_OK, "ok b <i4 (6,) new rest 0");
    answered("undo", BENCH_OK, "ok undo");
    answered("names", BENCH_OK, "names a m");
}

static void files(void)
{
    put("b", "front", " items");
    has("b", "front items");
    put("b", "", "again");
    has("b", "again");
    put("empty", "", "");
    has("empty", "");
    next("", "a.npy");
    next("a.npy", "b");
    next("b", "empty");
    next("empty", "");
    assert(bench_get(&bench, "c", 1, reply, sizeof reply, &length) == BENCH_NO_FILE && length == 0);
}

/* Nothing is written where there is not room for all of it. */
static void little_room(void)
{
    answered("names", BENCH_OK, "names a m");
    memset(reply, '#', 16);
    assert(bench_reply(&bench, reply, 8, &length) == BENCH_NO_ROOM && length == 9 && reply[0] == '#');
    assert(bench_reply(&bench, NULL, 0, &length) == BENCH_NO_ROOM && length == 9);
    assert(bench_reply(&bench, reply, 9, &length) == BENCH_OK && length == 9 && reply[8] == 'm' && reply[9] == '#');
    assert(bench_get(&bench, "b", 1, reply, 4, &length) == BENCH_NO_ROOM && length == 5);
    assert(bench_file(&bench, NULL, 0, reply, 4, &length) == BENCH_NO_ROOM && length == 5);
}

static void wrong_arguments(struct bench_handle *handle)
{
    int closed = handle == NULL || handle->at == NULL;
    int invalid = closed ? BENCH_CLOSED : BENCH_INVALID;
    assert(bench_answer(handle, NULL, 1) == invalid && bench_answer(handle, "a", SIZE_MAX) == invalid);
    assert(bench_answer(handle, NULL, 0) == (closed ? BENCH_CLOSED : BENCH_NOTHING));
    assert(bench_reply(handle, NULL, 1, &length) == invalid && bench_reply(handle, reply, sizeof reply, NULL) == invalid);
    assert(bench_put(handle, NULL, 0, "a", 1, NULL, 0) == invalid && bench_put(handle, NULL, 1, NULL, 0, NULL, 0) == invalid);
    assert(bench_put(handle, "a", 1, NULL, 1, NULL, 0) == invalid && bench_put(handle, "a", 1, NULL, 0, NULL, 1) == invalid);
    assert(bench_get(handle, NULL, 1, reply, sizeof reply, &length) == invalid && bench_get(handle, "b", 1, NULL, 1, &length) == invalid);
    assert(bench_get(handle, "b", 1, reply, sizeof reply, NULL) == invalid && bench_file(handle, "", 0, reply, sizeof reply, NULL) == invalid);
    assert(bench_file(handle, NULL, 1, reply, sizeof reply, &length) == invalid);
}

int main(int count, char **words)
{
    static char long_line[70000];
    left = count > 1 ? atol(words[1]) : 0;
    assert(bench_open(65, &bench) == BENCH_INVALID && bench.at == NULL && bench_open(16, NULL) == BENCH_INVALID);
    wrong_arguments(NULL);
    wrong_arguments(&bench);
    assert(bench_close(NULL) == BENCH_CLOSED && bench_close(&bench) == BENCH_CLOSED);
    opened();
    commands();
    files();
    little_room();
    memset(long_line, 'x', sizeof long_line - 1);
    answered(long_line, BENCH_REFUSED, "no E01 line too long");
    if (!refused) wrong_arguments(&bench);
    assert(bench_close(&bench) == BENCH_OK && bench.at == NULL && bench_close(&bench) == BENCH_CLOSED);
    puts(refused ? "one refused" : "none refused");
    return 0;
}
