/* The calls of bench.h. Each checks what the proved call behind it requires, that no pointer is NULL and that the handle is
 * open, and then makes that call. The contracts of those calls are in crates/bench_c/src, in lib.rt and array_calls.rt. */
#include "bench.h"

#include <stdint.h>

uint8_t bench_c_open(size_t depth, struct bench_handle *bench);
uint8_t bench_c_answer(struct bench_handle *bench, const uint8_t *line, size_t line_length);
uint8_t bench_c_reply(struct bench_handle *bench, uint8_t *out, size_t room, size_t *length);
uint8_t bench_c_put(struct bench_handle *bench, const uint8_t *name, size_t name_length, const uint8_t *front, size_t front_length,
                    const uint8_t *items, size_t items_length);
uint8_t bench_c_get(struct bench_handle *bench, const uint8_t *name, size_t name_length, uint8_t *out, size_t room, size_t *length);
uint8_t bench_c_file(struct bench_handle *bench, const uint8_t *name, size_t name_length, uint8_t *out, size_t room, size_t *length);
void bench_c_close(struct bench_handle *bench);

struct bench_c_info {
    size_t items, item_size;
    _Bool is_writable;
};

struct bench_c_given {
    const uint8_t *type;
    size_t type_length;
    const size_t *shape;
    size_t axes;
    const uint8_t *items;
    size_t length;
};

uint8_t bench_c_info(struct bench_handle *bench, const uint8_t *name, size_t name_length, struct bench_c_info *info);
uint8_t bench_c_shape(struct bench_handle *bench, const uint8_t *name, size_t name_length, size_t *out, size_t room, size_t *axes);
uint8_t bench_c_type(struct bench_handle *bench, const uint8_t *name, size_t name_length, uint8_t *out, size_t room, size_t *length);
uint8_t bench_c_items(struct bench_handle *bench, const uint8_t *name, size_t name_length, uint8_t *out, size_t room, size_t *length);
uint8_t bench_c_get_array(struct bench_handle *bench, const uint8_t *name, size_t name_length, uint8_t *out, size_t room, size_t *length);
uint8_t bench_c_put_array(struct bench_handle *bench, const uint8_t *name, size_t name_length, const struct bench_c_given *given);

/* bench_c_items writes the lowest byte of an integer first. */
_Static_assert(__BYTE_ORDER__ == __ORDER_LITTLE_ENDIAN__, "an int64_t has its lowest byte first");

/* Stands for a NULL whose length is 0. It is never read or written. */
static size_t none;

#define CHECK_OPEN(bench) \
    do { \
        if (!(bench) || !(bench)->at) return BENCH_CLOSED; \
    } while (0)

/* Checks that so many bytes can be there, and replaces a NULL whose length is 0. */
#define CHECK_BYTES(bytes, length) \
    do { \
        if ((!(bytes) && (length) != 0) || (length) > PTRDIFF_MAX) return BENCH_INVALID; \
        if (!(bytes)) (bytes) = (void *)&none; \
    } while (0)

int bench_open(size_t depth, struct bench_handle *bench)
{
    if (!bench) return BENCH_INVALID;
    bench->at = NULL;
    return bench_c_open(depth, bench);
}

int bench_answer(struct bench_handle *bench, const void *line, size_t line_length)
{
    CHECK_OPEN(bench);
    CHECK_BYTES(line, line_length);
    return bench_c_answer(bench, line, line_length);
}

int bench_reply(struct bench_handle *bench, void *out, size_t room, size_t *length)
{
    CHECK_OPEN(bench);
    CHECK_BYTES(out, room);
    if (!length) return BENCH_INVALID;
    return bench_c_reply(bench, out, room, length);
}

int bench_put(struct bench_handle *bench, const void *name, size_t name_length, const void *front, size_t front_length,
              const void *items, size_t items_length)
{
    CHECK_OPEN(bench);
    CHECK_BYTES(name, name_length);
    CHECK_BYTES(front, front_length);
    CHECK_BYTES(items, items_length);
    return bench_c_put(bench, name, name_length, front, front_length, items, items_length);
}

int bench_get(struct bench_handle *bench, const void *name, size_t name_length, void *out, size_t room, size_t *length)
{
    CHECK_OPEN(bench);
    CHECK_BYTES(name, name_length);
    CHECK_BYTES(out, room);
    if (!length) return BENCH_INVALID;
    return bench_c_get(bench, name, name_length, out, room, length);
}

int bench_file(struct bench_handle *bench, const void *name, size_t name_length, void *out, size_t room, size_t *length)
{
    CHECK_OPEN(bench);
    CHECK_BYTES(name, name_length);
    CHECK_BYTES(out, room);
    if (!length) return BENCH_INVALID;
    return bench_c_file(bench, name, name_length, out, room, length);
}

int bench_info(struct bench_handle *bench, const void *name, size_t name_length, struct bench_array *array)
{
    struct bench_c_info info = {0};
    int status;
    CHECK_OPEN(bench);
    CHECK_BYTES(name, name_length);
    if (!array) return BENCH_INVALID;
    status = bench_c_info(bench, name, name_length, &info);
    if (status != BENCH_OK) return status;
    array->items = info.items;
    array->item_size = info.item_size;
    array->is_writable = info.is_writable;
    return bench_c_shape(bench, name, name_length, array->shape, BENCH_MAX_AXES, &array->axes);
}

int bench_type(struct bench_handle *bench, const void *name, size_t name_length, void *out, size_t room, size_t *length)
{
    CHECK_OPEN(bench);
    CHECK_BYTES(name, name_length);
    CHECK_BYTES(out, room);
    if (!length) return BENCH_INVALID;
    return bench_c_type(bench, name, name_length, out, room, length);
}

int bench_items(struct bench_handle *bench, const void *name, size_t name_length, int64_t *out, size_t room, size_t *count)
{
    void *bytes = out;
    int status;
    CHECK_OPEN(bench);
    CHECK_BYTES(name, name_length);
    if (!count || room > PTRDIFF_MAX / sizeof *out) return BENCH_INVALID;
    CHECK_BYTES(bytes, room * sizeof *out);
    status = bench_c_items(bench, name, name_length, bytes, room * sizeof *out, count);
    *count /= sizeof *out;
    return status;
}

int bench_get_array(struct bench_handle *bench, const void *name, size_t name_length, void *out, size_t room, size_t *length)
{
    CHECK_OPEN(bench);
    CHECK_BYTES(name, name_length);
    CHECK_BYTES(out, room);
    if (!length) return BENCH_INVALID;
    return bench_c_get_array(bench, name, name_length, out, room, length);
}

int bench_put_array(struct bench_handle *bench, const void *name, size_t name_length, const void *type, size_t type_length,
                    const size_t *shape, size_t axes, const void *items, size_t length)
{
    CHECK_OPEN(bench);
    CHECK_BYTES(name, name_length);
    CHECK_BYTES(type, type_length);
    if (axes > PTRDIFF_MAX / sizeof *shape) return BENCH_INVALID;
    CHECK_BYTES(shape, axes);
    CHECK_BYTES(items, length);
    struct bench_c_given given = {type, type_length, shape, axes, items, length};
    return bench_c_put_array(bench, name, name_length, &given);
}

int bench_close(struct bench_handle *bench)
{
    CHECK_OPEN(bench);
    bench_c_close(bench);
    bench->at = NULL;
    return BENCH_OK;
}
