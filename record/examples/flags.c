// Each of two threads raises its flag and then looks at the other's. At most one of them may find it down in the same round; but on x86-64 both can,
// since a store waits in its core's buffer while the later load goes ahead. `search` says no, and names the two lines.
#include <pthread.h>
#include <stdatomic.h>
#include <stdio.h>
#include <stdlib.h>

#ifdef FENCE
#define BETWEEN() atomic_thread_fence(memory_order_seq_cst)
#else
#define BETWEEN() (void)0
#endif

enum { MOST_ROUNDS = 10000 };
static int rounds = 500;
static struct { _Alignas(64) atomic_int raised; } flags[2];
static char ahead[2][MOST_ROUNDS];      // the rounds in which a thread found the other's flag down

// Both begin a round at about the same time. That isn't recorded.
__attribute__((no_sanitize("thread"))) static void meet(int me, int round) {
    static struct { _Alignas(64) volatile int round; } at[2];
    for (at[me].round = round; at[1 - me].round < round;) {}
    for (volatile unsigned turns = (round * 2654435761u >> (me ? 20 : 26)) % 64; turns > 0; turns--) {}
}

static void *work(void *argument) {
    int me = argument != NULL;
    for (int round = 1; round <= rounds; round++) {
        meet(me, round);
        atomic_store_explicit(&flags[me].raised, round, memory_order_release);
        BETWEEN();
        ahead[me][round - 1] = atomic_load_explicit(&flags[1 - me].raised, memory_order_acquire) < round;
    }
    return NULL;
}

int main(int count, char **words) {
    pthread_t threads[2];
    int both = 0;
    if (count > 1) rounds = atoi(words[1]) < MOST_ROUNDS ? atoi(words[1]) : MOST_ROUNDS;
    for (int i = 0; i < 2; i++) pthread_create(&threads[i], NULL, work, i ? threads : NULL);
    for (int i = 0; i < 2; i++) pthread_join(threads[i], NULL);
    for (int i = 0; i < rounds; i++) both += ahead[0][i] && ahead[1][i];
    printf("both found the other's flag down in %d of %d rounds\n", both, rounds);
}
