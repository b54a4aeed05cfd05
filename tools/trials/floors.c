/* What a row of speed.txt takes at least: floors ROW N BYTES prints the seconds of a plain loop that does the same over N items, with what
   `undo` keeps, or of a copy that reads and writes so many bytes, where there is no loop for the row.

   A result has the next of 17 blocks, since 16 are kept and one is the newest. What is written over is read first, and kept in such a block. */
#include <limits.h>
#include <stdint.h>
#include <stdio.h>
#include <stdlib.h>
#include <string.h>
#include <time.h>

enum { KEPT = 17, RUNS = 12, BAND = 1024, TILE = 16 };
#define LONG_ENOUGH 0.03

/* The sources, the block for the result, how many items there are, the sides of a square and of a cube of them, and half of the bytes. */
static uint8_t *a, *b, *to;
static size_t n, side, cube, half;
static volatile size_t found;

static void copy(void) { memcpy(to, a, half); }

static void shl(void) {
    const int32_t *from = (void *)a;
    int32_t *restrict made = (void *)to;
    for (size_t i = 0; i < n; i++) made[i] = (int32_t)((uint32_t)from[i] << 2);
}

static void as_bool(void) {
    uint8_t *restrict made = to;
    for (size_t i = 0; i < n; i++) made[i] = a[i] != 0;
}

static void widen(void) {
    uint64_t *restrict made = (void *)to;
    for (size_t i = 0; i < n; i++) made[i] = (uint64_t)a[3 * i] | (uint64_t)a[3 * i + 1] << 8 | (uint64_t)a[3 * i + 2] << 16;
}

static uint32_t text(const uint8_t *item) { return (uint32_t)item[0] << 16 | (uint32_t)item[1] << 8 | item[2]; }

static void lt_text(void) {
    uint8_t *restrict made = to;
    for (size_t i = 0; i < n; i++) made[i] = text(a + 3 * i) < text(b + 3 * i);
}

static void gather_text(void) {
    const int64_t *place = (void *)b;
    for (size_t j = 0; j < n / 4; j++) {
        if ((uint64_t)place[j] >= n) abort();
        memcpy(to + 3 * j, a + 3 * place[j], 3);
    }
}

static void set_column(void) {
    uint32_t *item = (void *)a, *restrict old = (void *)to;
    for (size_t i = 0; i < n / 4; i++) old[i] = item[4 * i], item[4 * i] = 5;
}

static void set_field(void) {
    uint32_t *item = (void *)a, *from = (void *)b, *restrict old = (void *)to;
    for (size_t i = 0; i < n; i++) old[i] = item[2 * i], item[2 * i] = from[i];
}

/* An item may be named twice, so all old ones are read first; undo needs the places too. */
static void set_places(void) {
    const int64_t *place = (void *)b;
    uint32_t *item = (void *)a, *restrict old = (void *)to, *restrict places = old + n / 4;
    for (size_t j = 0; j < n / 4; j++) {
        if ((uint64_t)place[j] >= n) abort();
        places[j] = (uint32_t)place[j], old[j] = item[place[j]];
    }
    for (size_t j = 0; j < n / 4; j++) item[places[j]] = 5;
}

static void mask(void) {
    const uint32_t *from = (void *)a;
    uint32_t *made = (void *)to;
    size_t j = 0;
    for (size_t i = 0; i < n; i++) made[j] = from[i], j += b[i] != 0;
    found = j;
}

static void turn_cube(void) {
    const uint32_t *from = (void *)a;
    uint32_t *restrict made = (void *)to;
    for (size_t j = 0; j < cube; j++)
        for (size_t first = 0; first < cube; first += TILE)
            for (size_t k = 0; k < cube; k++)
                for (size_t i = first; i < cube && i < first + TILE; i++) made[(i * cube + j) * cube + k] = from[(k * cube + j) * cube + i];
}

static void repeat_row(void) {
    for (size_t i = 0; i < side; i++) memcpy(to + 4 * side * i, a, 4 * side);
}

static void add_row(void) {
    const uint32_t *from = (void *)a, *row = (void *)b;
    uint32_t *restrict made = (void *)to;
    for (size_t i = 0; i < side; i++)
        for (size_t j = 0; j < side; j++) made[side * i + j] = from[side * i + j] + row[j];
    a = to;
}

static void least_place(void) {
    const int32_t *from = (void *)a;
    int32_t least = INT_MAX;
    size_t first = 0;
    for (size_t i = 0; i < n; i += BAND) {
        size_t end = i + BAND < n ? i + BAND : n;
        int32_t here = INT_MAX;
        for (size_t j = i; j < end; j++) here = from[j] < here ? from[j] : here;
        if (here < least) least = here, first = i;
    }
    while (from[first] != least) first++;
    found = first;
}

static void ramp(void) {
    for (size_t i = 0; i < n; i++) ((int32_t *)a)[i] = (int32_t)(n - i);
}

static void first_half(void) {
    for (size_t i = 0; i < n; i++) b[i] = i < n / 2;
}

static void at_random(void) {
    for (size_t i = 0; i < n / 4; i++) ((int64_t *)b)[i] = (int64_t)(i * 2654435761 % n);
}

/* The loop of a row, and what fills its sources, which are zeros. */
static const struct { const char *row; void (*loop)(void), (*fill)(void); } floors[] = {
    {"shl <i4, by one number", shl, ramp}, {"cast |u1 |b1", as_bool, ramp}, {"cast |b1 |u1", as_bool, ramp}, {"cast |S3 |S8", widen, ramp},
    {"lt |S3", lt_text, ramp}, {"index, of |S3", gather_text, at_random}, {"set, a column", set_column, ramp}, {"set, a field", set_field, ramp},
    {"set, index <i8, one number", set_places, at_random}, {"mask, the first half", mask, first_half}, {"copy, three axes turned", turn_cube, ramp},
    {"copy, a broadcast row", repeat_row, ramp}, {"upd, a row to every row", add_row, ramp}, {"argmin, a falling ramp", least_place, ramp},
};

static void *block(void) {
    size_t bytes = (((half > 8 * n ? half : 8 * n) >> 21) + 1) << 21;
    void *made = aligned_alloc(1 << 21, bytes);
    if (!made) exit(3);
    return memset(made, 0, bytes);
}

static double seconds(void (*loop)(void), uint8_t *const *blocks, size_t times) {
    struct timespec before, after;
    clock_gettime(CLOCK_PROCESS_CPUTIME_ID, &before);
    for (size_t k = 0; k < times; k++) to = blocks[k % KEPT], loop();
    clock_gettime(CLOCK_PROCESS_CPUTIME_ID, &after);
    return (double)(after.tv_sec - before.tv_sec) + 1e-9 * (double)(after.tv_nsec - before.tv_nsec);
}

static double least_seconds(void (*loop)(void)) {
    uint8_t *blocks[KEPT];
    size_t times = KEPT;
    double least = 1e9;
    for (int k = 0; k < KEPT; k++) blocks[k] = block();
    while (seconds(loop, blocks, times) < LONG_ENOUGH) times *= 2;
    for (int run = 0; run < RUNS; run++) {
        double took = seconds(loop, blocks, times) / (double)times;
        least = took < least ? took : least;
    }
    return least;
}

int main(int count, char **words) {
    if (count != 4) return 2;
    n = strtoull(words[2], NULL, 10), half = strtoull(words[3], NULL, 10) / 2;
    while ((side + 1) * (side + 1) <= n) side++;
    while ((cube + 1) * (cube + 1) * (cube + 1) <= n) cube++;
    a = block(), b = block();
    size_t k = 0, rows = sizeof floors / sizeof *floors;
    while (k < rows && strcmp(floors[k].row, words[1])) k++;
    if (k < rows) floors[k].fill();
    printf("%.9f\n", least_seconds(k < rows ? floors[k].loop : copy));
    return 0;
}
