/* wide_calls N: the numbers of 128 bits of page/wide.c beside the compiler's own, N random trials of each call. */
#include <stdio.h>
#include <stdlib.h>
typedef unsigned __int128 u128;
u128 wide_shl(u128 value, int by), wide_shr(u128 value, int by), wide_mul(u128 left, u128 right), wide_div(u128 left, u128 right);

static unsigned long long state = 1;
static unsigned long long next(void)
{
    state = state * 6364136223846793005ull + 1442695040888963407ull;
    return state ^ state >> 29;
}

/* A number of any width, often one of few bits or near a power of two. */
static u128 number(void)
{
    u128 value = (u128)next() << 64 | next();
    int by = next() % 128;
    return next() % 4 ? value >> by : ((u128)1 << by) + next() % 3 - 1;
}

int main(int count, char **words)
{
    for (long k = 0; k < (count > 1 ? atol(words[1]) : 1000000); k++) {
        u128 left = number(), right = number();
        int by = next() % 128;
        if (wide_shl(left, by) != left << by || wide_shr(left, by) != left >> by || wide_mul(left, right) != left * right || (right && wide_div(left, right) != left / right)) {
            printf("wrong in trial %ld\n", k);
            return 1;
        }
    }
    return 0;
}
