/* Two threads, each with a bench of its own, answer the same lines at the same time. */
#include <bench.h>
#include <assert.h>
#include <pthread.h>
#include <stdio.h>
#include <string.h>

static void *session(void *first)
{
    char line[64], reply[64], wanted[64];
    struct bench_handle bench;
    size_t length;
    assert(bench_open(16, &bench) == BENCH_OK);
    for (int number = 0; number < 2000; number++) {
        snprintf(line, sizeof line, "a = full <i4 (3) %d", *(int *)first + number);
        assert(bench_answer(&bench, line, strlen(line)) == BENCH_OK);
        assert(bench_answer(&bench, "del a", 5) == BENCH_OK);
        assert(bench_answer(&bench, "undo", 4) == BENCH_OK);
        assert(bench_answer(&bench, "print a[1:2]", 12) == BENCH_REFUSED);
        assert(bench_answer(&bench, "print a", 7) == BENCH_OK);
        assert(bench_reply(&bench, reply, sizeof reply, &length) == BENCH_OK);
        snprintf(wanted, sizeof wanted, "[%d %d %d]", *(int *)first + number, *(int *)first + number, *(int *)first + number);
        assert(length == strlen(wanted) && memcmp(reply, wanted, length) == 0);
        assert(bench_answer(&bench, "save a \"a.npy\"", 14) == BENCH_OK && bench_answer(&bench, "del a", 5) == BENCH_OK);
    }
    bench_close(&bench);
    return NULL;
}

int main(void)
{
    pthread_t one, other;
    int first = 10000, second = 20000;
    assert(pthread_create(&one, NULL, session, &first) == 0 && pthread_create(&other, NULL, session, &second) == 0);
    assert(pthread_join(one, NULL) == 0 && pthread_join(other, NULL) == 0);
    return 0;
}
