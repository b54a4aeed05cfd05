/* bench: a workbench for strided arrays, as a library.
 *
 * SPDX-License-Identifier: MIT OR Apache-2.0
 *
 * A handle holds one bench: its named arrays, its undo history, its files (which are kept in memory) and the reply to its
 * last line. Give it the lines of a script one by one:
 *
 *     struct bench_handle bench;
 *     if (bench_open(16, &bench) != BENCH_OK) ..
 *     bench_answer(&bench, "a = arange <i4 0 6 1", 20);
 *     bench_close(&bench);
 *
 * Ownership. The caller owns every buffer. The library reads or writes it only during the call, keeps no pointer to it, and
 * returns no pointer into its own memory. A handle owns its bench until bench_close; do not copy an open handle.
 *
 * Lengths are in bytes. Texts are not terminated by a zero byte, neither as arguments nor as results. A pointer whose length
 * is 0 may be NULL. A buffer that a call writes must not overlap one that it reads, nor the object that `length` points to.
 *
 * Threads. Only one thread at a time may use a handle. Different handles are independent and need no lock.
 *
 * Status. Every call returns a status. No call aborts, and after every status but BENCH_CLOSED the handle is still usable.
 */
#ifndef BENCH_H
#define BENCH_H

#include <stddef.h>
#include <stdint.h>

#ifdef __cplusplus
extern "C" {
#endif

enum bench_status {
    BENCH_OK = 0,        /* Success. From bench_answer: the command was accepted. */
    BENCH_REFUSED = 1,   /* bench_answer and the calls for arrays: refused. The reply says why, and nothing changed. */
    BENCH_NOTHING = 2,   /* bench_answer: the line is blank or a comment. The reply is empty. */
    BENCH_NO_MEMORY = 3, /* bench_open, bench_put: out of memory. Nothing changed. */
    BENCH_TOO_LONG = 4,  /* bench_put: the file would be longer than 2^29 bytes. Nothing changed. */
    BENCH_NO_FILE = 5,   /* bench_get: there is no file with this name. bench_file: there is no further name. */
    BENCH_NO_ROOM = 6,   /* The buffer is too small. Nothing was copied, and *length is the length that is needed. */
    BENCH_INVALID = 7,   /* An invalid argument: NULL, an impossible length, a depth above 64, an empty file name. Nothing changed. */
    BENCH_CLOSED = 8     /* The handle is NULL or closed. */
};

/* A handle that is all zeros is closed. */
struct bench_handle {
    void *at;
};

/* Opens a bench without names and files, in which `undo` can take back up to `depth` changes (0 to 64). The handle is
 * overwritten and need not be initialized; if it is open, close it first. After BENCH_NO_MEMORY and BENCH_INVALID it is closed. */
int bench_open(size_t depth, struct bench_handle *bench);

/* Answers one line of a script, given without its newline: BENCH_OK, BENCH_REFUSED or BENCH_NOTHING. A line longer than
 * 65,536 bytes is refused. So is a line with a carriage return at its end, "no E02 byte not allowed"; the program, which reads
 * scripts, takes it as a part of the newline. So is a command for which there is no memory: "no E40 out of memory". */
int bench_answer(struct bench_handle *bench, const void *line, size_t line_length);

/* Copies the reply to the last line, without a newline at its end, to `out`, which has room for `room` bytes, and sets
 * *length to the length of the reply. If that is more than `room` (BENCH_NO_ROOM), nothing is copied; call again with that
 * much room. The reply stays until the next bench_answer. */
int bench_reply(struct bench_handle *bench, void *out, size_t room, size_t *length);

/* Stores a file that `load` can read, and replaces the file with this name if there is one. Its contents are a copy of
 * `front` followed by a copy of `items`; either may be empty. For an NPY file, `front` can be the header and `items` the memory
 * of an array. A script can name files whose names have 1 to 64 letters, digits, '_', '-' and '.' and do not begin with '-' or
 * '.'; files with other names can be reached by bench_get and bench_file only. */
int bench_put(struct bench_handle *bench, const void *name, size_t name_length, const void *front, size_t front_length,
              const void *items, size_t items_length);

/* Copies the contents of a file, as `save` or bench_put left it, to `out`, and sets *length to the length of the file, as
 * bench_reply does. With BENCH_NO_FILE, *length is 0. */
int bench_get(struct bench_handle *bench, const void *name, size_t name_length, void *out, size_t room, size_t *length);

/* Copies the name of the first file after `name`, in the order of their bytes, to `out`, and sets *length as bench_get does.
 * To list all files, begin with the empty name and pass each name to the next call, until BENCH_NO_FILE. */
int bench_file(struct bench_handle *bench, const void *name, size_t name_length, void *out, size_t room, size_t *length);

/* The calls for arrays take the name of an array in place of a line. If they are refused, the status is BENCH_REFUSED, and the reply
 * says why, as that of a line does: "no E06 unknown name", or "no E40 out of memory". Otherwise only bench_put_array changes it. */

enum { BENCH_MAX_AXES = 64 };

/* What bench_info knows about an array. */
struct bench_array {
    size_t axes;                  /* The number of axes. */
    size_t shape[BENCH_MAX_AXES]; /* The length of each axis. */
    size_t items;                 /* The number of items, the product of the lengths. */
    size_t item_size;             /* The number of bytes of an item. */
    int is_writable;              /* 0 if the array is read-only, as a broadcast one is. */
};

/* Sets *array to what is known about an array. */
int bench_info(struct bench_handle *bench, const void *name, size_t name_length, struct bench_array *array);

/* Copies the type of an array, such as "<i4" or the format of a record, to `out`, and sets *length as bench_reply does. */
int bench_type(struct bench_handle *bench, const void *name, size_t name_length, void *out, size_t room, size_t *length);

/* Copies the items of an array of bools or integers to `out`, in C order, each as an int64_t, and sets *count to their number. If
 * that is more than `room` (BENCH_NO_ROOM), nothing is copied. An unsigned integer above 2^63 - 1 keeps its 64 bits, and so becomes
 * negative: cast it to uint64_t. Byte strings and records are refused, "no E33 no such cast". */
int bench_items(struct bench_handle *bench, const void *name, size_t name_length, int64_t *out, size_t room, size_t *count);

/* Copies the items of an array to `out`, in C order, each in the bytes of its own type, and sets *length to the number of bytes, as
 * bench_reply does. It is what an NPY file has after its header. */
int bench_get_array(struct bench_handle *bench, const void *name, size_t name_length, void *out, size_t room, size_t *length);

/* Binds a name to a new array of this type, such as "<i4" or the format of a record, and this shape. `items` are its items in C
 * order, as bench_get_array copies them; if `length` is not the number of their bytes, the reply is "no E32 number of values".
 * Otherwise it is that of a command, such as "ok a <i4 (2, 3) new". `undo` takes the binding back. */
int bench_put_array(struct bench_handle *bench, const void *name, size_t name_length, const void *type, size_t type_length,
                    const size_t *shape, size_t axes, const void *items, size_t length);

/* Frees the bench with its arrays, history and files, and sets the handle to zeros. If it was closed: BENCH_CLOSED. */
int bench_close(struct bench_handle *bench);

#ifdef __cplusplus
}
#endif

#endif
