/* Makes each call for arrays, with valid and with invalid arguments, and aborts if a result is not as bench.h says. It is linked with
 * --wrap=malloc --wrap=realloc. Given a number, it refuses the request for memory with that number: then one call may be out of memory,
 * and has changed no array. */
#include <bench.h>
#include <assert.h>
#include <stdint.h>
#include <stdio.h>
#include <stdlib.h>
#include <string.h>

static long left;
static int refused;
static struct bench_handle bench;
static struct bench_array array;
static char reply[1 << 12], small[16];
static int64_t numbers[64];
static size_t length;

void *__real_malloc(size_t size);
void *__real_realloc(void *at, size_t size);

static int refuses(void)
{
    if (left == 0 || --left != 0) return 0;
    refused = 1;
    return 1;
}

void *__wrap_malloc(size_t size)
{
    return refuses() ? NULL : __real_malloc(size);
}

void *__wrap_realloc(void *at, size_t size)
{
    return refuses() ? NULL : __real_realloc(at, size);
}

static int replies(const char *text)
{
    assert(bench_reply(&bench, reply, sizeof reply, &length) == BENCH_OK);
    return length == strlen(text) && memcmp(reply, text, length) == 0;
}

static int lacks_memory(int status)
{
    return status == BENCH_NO_MEMORY || (status == BENCH_REFUSED && replies("no E40 out of memory"));
}

/* The status of a call, which is made again if memory was refused meanwhile. */
#define MADE(status, call) \
    do { \
        int before = refused, made = (call); \
        if (!before && refused && lacks_memory(made)) made = (call); \
        assert(made == (status)); \
    } while (0)

static void line(const char *text)
{
    MADE(BENCH_OK, bench_answer(&bench, text, strlen(text)));
}

static void is(const char *name, const char *type, size_t axes, const size_t *shape, int is_writable)
{
    size_t items = 1;
    for (size_t k = 0; k < axes; k++) items *= shape[k];
    MADE(BENCH_OK, bench_info(&bench, name, strlen(name), &array));
    assert(array.axes == axes && array.items == items && array.is_writable == is_writable);
    assert(axes == 0 || memcmp(array.shape, shape, axes * sizeof *shape) == 0);
    MADE(BENCH_OK, bench_type(&bench, name, strlen(name), reply, sizeof reply, &length));
    assert(length == strlen(type) && memcmp(reply, type, length) == 0);
}

static void has(const char *name, size_t count, const int64_t *items)
{
    size_t found;
    MADE(BENCH_OK, bench_items(&bench, name, strlen(name), numbers, sizeof numbers / sizeof *numbers, &found));
    assert(found == count && memcmp(numbers, items, count * sizeof *items) == 0);
}

static void has_bytes(const char *name, size_t count, const void *bytes)
{
    MADE(BENCH_OK, bench_get_array(&bench, name, strlen(name), reply, sizeof reply, &length));
    assert(length == count && memcmp(reply, bytes, count) == 0);
}

static void put(const char *name, const char *type, size_t axes, const size_t *shape, const void *items, size_t count)
{
    MADE(BENCH_OK, bench_put_array(&bench, name, strlen(name), type, strlen(type), shape, axes, items, count));
    has_bytes(name, count, items);
}

#define SHAPE(...) (size_t[]){__VA_ARGS__}
#define ITEMS(...) (int64_t[]){__VA_ARGS__}

static void asked(void)
{
    line("a = array >i2 (2,3) 1 -2 3 4 500 -32768");
    is("a", ">i2", 2, SHAPE(2, 3), 1);
    assert(array.item_size == 2);
    has("a", 6, ITEMS(1, -2, 3, 4, 500, -32768));
    has_bytes("a", 12, "\0\1\xff\xfe\0\3\0\4\1\xf4\x80\0");
    line("t = transpose a (1,0)");
    is("t", ">i2", 2, SHAPE(3, 2), 1);
    has("t", 6, ITEMS(1, 4, -2, 500, 3, -32768));
    has_bytes("t", 12, "\0\1\0\4\xff\xfe\1\xf4\0\3\x80\0");
    line("w = broadcast a (2,2,3)");
    is("w", ">i2", 3, SHAPE(2, 2, 3), 0);
    has("w", 12, ITEMS(1, -2, 3, 4, 500, -32768, 1, -2, 3, 4, 500, -32768));
    line("r = a[1,::-2]");
    has("r", 2, ITEMS(-32768, 4));
    line("u = array <u8 (2) 18446744073709551615 9223372036854775807");
    has("u", 2, ITEMS(-1, INT64_MAX));
    line("i = array <i8 (2) -9223372036854775808 9223372036854775807");
    has("i", 2, ITEMS(INT64_MIN, INT64_MAX));
    line("b = array |b1 (3) True False True");
    is("b", "|b1", 1, SHAPE(3), 1);
    has("b", 3, ITEMS(1, 0, 1));
    line("n = array |i1 (2) -128 127");
    has("n", 2, ITEMS(-128, 127));
    line("z = array |u1 () 255");
    is("z", "|u1", 0, NULL, 1);
    has("z", 1, ITEMS(255));
    line("e = zeros <i4 (0,3)");
    is("e", "<i4", 2, SHAPE(0, 3), 1);
    has("e", 0, numbers);
    has_bytes("e", 0, "");
    line("s = array |S3 (2) b'ab' b'xyz'");
    has_bytes("s", 6, "ab\0xyz");
    line("p = zeros T{<i:x:>h:strides (:} (1,2)");
    is("p", "T{<i:x:>h:strides (:}", 2, SHAPE(1, 2), 1);
    has_bytes("p", 12, "\0\0\0\0\0\0\0\0\0\0\0\0");
}

static void given(void)
{
    static const size_t many[65] = {1};
    char type[2001] = "S";
    put("g", "<i4", 2, SHAPE(1, 2), "\1\0\0\0\xff\xff\xff\xff", 8);
    is("g", "<i4", 2, SHAPE(1, 2), 1);
    has("g", 2, ITEMS(1, -1));
    put("g", ">u2", 1, SHAPE(1), "\1\2", 2);
    has("g", 1, ITEMS(258));
    line("undo");
    has("g", 2, ITEMS(1, -1));
    put("h", "|b1", 0, NULL, "\1", 1);
    put("h", "|S2", 1, SHAPE(2), "abcd", 4);
    put("h", "<i8", 3, SHAPE(2, 0, 5), "", 0);
    is("h", "<i8", 3, SHAPE(2, 0, 5), 1);
    MADE(BENCH_OK, bench_put_array(&bench, "h", 1, "T{<i:x:>h:y:}", 13, SHAPE(2), 1, "\1\0\0\0\0\2\3\0\0\0\0\4", 12));
    assert(replies("ok h T{<i:x:>h:y:} (2,) new"));
    has_bytes("h", 12, "\1\0\0\0\0\2\3\0\0\0\0\4");
    MADE(BENCH_REFUSED, bench_put_array(&bench, "g", 1, "<i4", 3, SHAPE(2), 1, "\0\0\0\0", 4));
    MADE(BENCH_REFUSED, bench_put_array(&bench, "g", 1, "<i4", 3, SHAPE(1), 1, "\0\0\0\0\0\0\0\0", 8));
    assert(replies("no E32 number of values"));
    MADE(BENCH_REFUSED, bench_put_array(&bench, "g", 1, "<f4", 3, SHAPE(1), 1, "\0\0\0\0", 4));
    assert(replies("no E05 descriptor left out"));
    MADE(BENCH_REFUSED, bench_put_array(&bench, "g", 1, "i'4", 3, SHAPE(1), 1, "\0\0\0\0", 4));
    assert(replies("no E04 bad descriptor"));
    MADE(BENCH_REFUSED, bench_put_array(&bench, "g h", 3, "<i4", 3, SHAPE(1), 1, "\0\0\0\0", 4));
    assert(replies("no E03 syntax"));
    MADE(BENCH_REFUSED, bench_put_array(&bench, "g", 1, "|b1", 3, many, 65, NULL, 0));
    assert(replies("no E08 too many axes"));
    for (size_t count = 6; count <= 2000; count += 1 + count / 7) {
        memset(type + 1, '0', count);
        MADE(BENCH_REFUSED, bench_put_array(&bench, "g", 1, type, count, SHAPE(1), 1, "", 0));
    }
    has("g", 2, ITEMS(1, -1));
}

static void refused_names(void)
{
    size_t count = 7;
    MADE(BENCH_REFUSED, bench_info(&bench, "missing", 7, &array));
    assert(replies("no E06 unknown name"));
    MADE(BENCH_REFUSED, bench_type(&bench, "missing", 7, reply, sizeof reply, &length));
    MADE(BENCH_REFUSED, bench_get_array(&bench, "missing", 7, reply, sizeof reply, &length));
    MADE(BENCH_REFUSED, bench_items(&bench, "missing", 7, numbers, 4, &count));
    assert(count == 0 && replies("no E06 unknown name"));
    assert(bench_info(&bench, "a\nb", 3, &array) == BENCH_REFUSED && bench_info(&bench, NULL, 0, &array) == BENCH_REFUSED);
    assert(bench_info(&bench, "a23456789012345678901234567890123", 33, &array) == BENCH_REFUSED);
    MADE(BENCH_REFUSED, bench_items(&bench, "s", 1, numbers, 4, &count));
    assert(count == 0 && replies("no E33 no such cast"));
    MADE(BENCH_REFUSED, bench_items(&bench, "p", 1, numbers, 4, &count));
    assert(replies("no E33 no such cast"));
}

static void little_room(void)
{
    size_t count;
    memset(small, '#', 16);
    memset(numbers, 1, sizeof numbers);
    MADE(BENCH_NO_ROOM, bench_items(&bench, "a", 1, numbers, 5, &count));
    assert(count == 6 && numbers[0] == 0x0101010101010101);
    MADE(BENCH_NO_ROOM, bench_items(&bench, "a", 1, NULL, 0, &count));
    MADE(BENCH_NO_ROOM, bench_get_array(&bench, "a", 1, small, 11, &length));
    assert(count == 6 && length == 12 && small[0] == '#');
    MADE(BENCH_NO_ROOM, bench_type(&bench, "a", 1, small, 2, &length));
    assert(length == 3 && small[0] == '#');
}

static void wrong_arguments(struct bench_handle *handle)
{
    int invalid = handle == NULL || handle->at == NULL ? BENCH_CLOSED : BENCH_INVALID;
    assert(bench_info(handle, NULL, 1, &array) == invalid && bench_info(handle, "a", 1, NULL) == invalid);
    assert(bench_type(handle, "a", 1, NULL, 1, &length) == invalid && bench_type(handle, "a", 1, reply, 1, NULL) == invalid);
    assert(bench_items(handle, "a", 1, NULL, 1, &length) == invalid && bench_items(handle, "a", 1, numbers, SIZE_MAX / 4, &length) == invalid);
    assert(bench_items(handle, "a", 1, numbers, 1, NULL) == invalid && bench_get_array(handle, "a", 1, reply, 1, NULL) == invalid);
    assert(bench_put_array(handle, "a", 1, NULL, 3, NULL, 0, NULL, 0) == invalid && bench_put_array(handle, "a", 1, "<i4", 3, NULL, 1, NULL, 0) == invalid);
    assert(bench_put_array(handle, "a", 1, "<i4", 3, NULL, 0, NULL, 4) == invalid && bench_put_array(handle, NULL, 1, "<i4", 3, NULL, 0, "1234", 4) == invalid);
    assert(bench_put_array(handle, "a", 1, "<i4", 3, (size_t[]){1}, SIZE_MAX, "1234", 4) == invalid);
}

int main(int count, char **words)
{
    left = count > 1 ? atol(words[1]) : 0;
    wrong_arguments(NULL);
    wrong_arguments(&bench);
    MADE(BENCH_OK, bench_open(16, &bench));
    asked();
    given();
    refused_names();
    little_room();
    wrong_arguments(&bench);
    has("a", 6, ITEMS(1, -2, 3, 4, 500, -32768));
    assert(bench_close(&bench) == BENCH_OK);
    puts(refused ? "one refused" : "none refused");
    return 0;
}
