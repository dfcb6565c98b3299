// Dekker's lock with relaxed atomics, around a counter: a thread may see the other's flag down before its own is seen, so both hold the lock, and an
// update is lost. With -DFENCE a fence stands behind the store of each flag, and nothing is lost.
#include <pthread.h>
#include <sched.h>
#include <stdatomic.h>
#include <stdio.h>
#include <stdlib.h>

#ifdef FENCE
#define RAISED() atomic_thread_fence(memory_order_seq_cst)
#else
#define RAISED() (void)0
#endif

static int rounds = 500;
static _Alignas(64) atomic_int wants[2];
static _Alignas(64) atomic_int turn;
static _Alignas(64) atomic_int counter;
static _Alignas(64) volatile int here[2];

// Both begin at the same time. That isn't recorded.
__attribute__((no_sanitize("thread"))) static void meet(int me) {
    for (int i = 1; i <= 200; i++) for (here[me] = i; here[1 - me] < i;) {}
}

static void lock(int me) {
    atomic_store_explicit(&wants[me], 1, memory_order_relaxed);
    RAISED();
    while (atomic_load_explicit(&wants[1 - me], memory_order_acquire)) {
        if (atomic_load_explicit(&turn, memory_order_relaxed) == me) continue;
        atomic_store_explicit(&wants[me], 0, memory_order_relaxed);
        while (atomic_load_explicit(&turn, memory_order_relaxed) != me) sched_yield();
        atomic_store_explicit(&wants[me], 1, memory_order_relaxed);
        RAISED();
    }
}

static void unlock(int me) {
    atomic_store_explicit(&turn, 1 - me, memory_order_relaxed);
    atomic_store_explicit(&wants[me], 0, memory_order_release);
}

static void *work(void *argument) {
    int me = argument != NULL;
    meet(me);
    for (int i = 0; i < rounds; i++) {
        lock(me);
        int held = atomic_load_explicit(&counter, memory_order_relaxed);
        atomic_store_explicit(&counter, held + 1, memory_order_relaxed);
        unlock(me);
    }
    return NULL;
}

int main(int count, char **words) {
    pthread_t threads[2];
    if (count > 1) rounds = atoi(words[1]);
    for (int i = 0; i < 2; i++) pthread_create(&threads[i], NULL, work, i ? threads : NULL);
    for (int i = 0; i < 2; i++) pthread_join(threads[i], NULL);
    printf("%d of %d updates\n", counter, 2 * rounds);
}
