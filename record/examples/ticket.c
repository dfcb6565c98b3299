// A ticket lock with acquire and release, around two counters. It needs no more: `search` says yes.
#include <pthread.h>
#include <sched.h>
#include <stdatomic.h>
#include <stdio.h>

enum { ROUNDS = 200, THREADS = 2 };
static _Alignas(64) atomic_uint next_ticket;
static _Alignas(64) atomic_uint served;
static int once, twice;     // once is counted up by one, and twice by two

static void lock(void) {
    unsigned mine = atomic_fetch_add_explicit(&next_ticket, 1, memory_order_relaxed);
    while (atomic_load_explicit(&served, memory_order_acquire) != mine) sched_yield();
}

static void unlock(void) {
    unsigned mine = atomic_load_explicit(&served, memory_order_relaxed);
    atomic_store_explicit(&served, mine + 1, memory_order_release);
}

static void *work(void *argument) {
    for (int i = 0; i < ROUNDS; i++) {
        lock();
        once += 1;
        twice += 2;
        unlock();
    }
    return argument;
}

int main(void) {
    pthread_t threads[THREADS];
    for (int i = 0; i < THREADS; i++) pthread_create(&threads[i], NULL, work, NULL);
    for (int i = 0; i < THREADS; i++) pthread_join(threads[i], NULL);
    printf("once %d, twice %d\n", once, twice);
}
