/* Runs scripts, each of which ends with a line of one zero byte, and prints for each script the reply to each line, an empty one
 * too, then each file as its name and its bytes in hexadecimal, and then such a line. */
#include <bench.h>
#include <stdio.h>
#include <stdlib.h>

static char reply[1 << 24];

static void files(struct bench_handle *bench)
{
    char name[64], next[64];
    size_t length = 0, size;
    while (bench_file(bench, name, length, next, sizeof next, &size) == BENCH_OK) {
        length = size;
        for (size_t at = 0; at < size; at++) putchar(name[at] = next[at]);
        if (bench_get(bench, name, length, reply, sizeof reply, &size) != BENCH_OK) exit(3);
        putchar(' ');
        for (size_t at = 0; at < size; at++) printf("%02x", (unsigned char)reply[at]);
        putchar('\n');
    }
}

int main(void)
{
    struct bench_handle bench;
    char *line = NULL;
    size_t room = 0, length;
    ssize_t read;
    if (bench_open(16, &bench) != BENCH_OK) return 3;
    while ((read = getline(&line, &room, stdin)) > 0) {
        size_t size = read - (line[read - 1] == '\n');
        if (size == 1 && line[0] == '\0') {
            files(&bench);
            fwrite("\0\n", 1, 2, stdout);
            bench_close(&bench);
            if (bench_open(16, &bench) != BENCH_OK) return 3;
            continue;
        }
        if (size > 0 && line[size - 1] == '\r') size--;
        bench_answer(&bench, line, size);
        if (bench_reply(&bench, reply, sizeof reply, &length) != BENCH_OK) return 3;
        fwrite(reply, 1, length, stdout);
        putchar('\n');
    }
    free(line);
    return bench_close(&bench);
}
