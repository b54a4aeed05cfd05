/* Runs a script, as the program does: ./script <examples/mirrored.bench */
#include <bench.h>
#include <stdio.h>
#include <stdlib.h>
#include <string.h>

int main(void)
{
    static char line[1 << 17];
    struct bench_handle bench;
    size_t room = 1 << 16, length;
    char *reply = malloc(room);
    int status, refused = 0;
    if (!reply || bench_open(16, &bench) != BENCH_OK) return 3;
    while (fgets(line, sizeof line, stdin)) {
        status = bench_answer(&bench, line, strcspn(line, "\r\n"));
        if (status == BENCH_NOTHING) continue;
        refused |= status == BENCH_REFUSED;
        while (bench_reply(&bench, reply, room, &length) == BENCH_NO_ROOM) {
            reply = realloc(reply, room = length);
            if (!reply) return 3;
        }
        fwrite(reply, 1, length, stdout);
        putchar('\n');
    }
    bench_close(&bench);
    free(reply);
    return refused;
}
