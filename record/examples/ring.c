// A ring buffer each way between two threads, with acquire and release, as it should be. Each thread stores the end of its own ring and then loads
// that of the other's: on x86-64 the load may go ahead. So `search` may say no, though every word comes through in its order: the no is harmless.
// With -DFENCE a fence stands between the two, and `search` says yes.
#include <pthread.h>
#include <sched.h>
#include <stdatomic.h>
#include <stdio.h>

#ifdef FENCE
#define BETWEEN() atomic_thread_fence(memory_order_seq_cst)
#else
#define BETWEEN() (void)0
#endif

enum { WORDS = 500, ROOM = 8 };
typedef struct {
    _Alignas(64) atomic_int head;
    _Alignas(64) atomic_int tail;
    int words[ROOM];
} ring;
static ring rings[2];

static int push(ring *r, int word) {
    int tail = atomic_load_explicit(&r->tail, memory_order_relaxed);
    if (tail - atomic_load_explicit(&r->head, memory_order_acquire) == ROOM) return 0;
    r->words[tail % ROOM] = word;
    atomic_store_explicit(&r->tail, tail + 1, memory_order_release);
    return 1;
}

static int pop(ring *r, int *word) {
    int head = atomic_load_explicit(&r->head, memory_order_relaxed);
    if (atomic_load_explicit(&r->tail, memory_order_acquire) == head) return 0;
    *word = r->words[head % ROOM];
    atomic_store_explicit(&r->head, head + 1, memory_order_release);
    return 1;
}

static void *work(void *argument) {
    int me = argument != NULL, sent = 0, got = 0, wrong = 0, word;
    while (sent < WORDS || got < WORDS) {
        int before = sent + got;
        if (sent < WORDS) sent += push(&rings[me], sent);
        BETWEEN();
        if (got < WORDS && pop(&rings[1 - me], &word)) wrong += word != got++;
        if (sent + got == before) sched_yield();
    }
    return wrong ? argument : NULL;
}

int main(void) {
    pthread_t threads[2];
    void *wrong[2];
    for (int i = 0; i < 2; i++) pthread_create(&threads[i], NULL, work, i ? threads : NULL);
    for (int i = 0; i < 2; i++) pthread_join(threads[i], &wrong[i]);
    puts(wrong[0] || wrong[1] ? "words came in another order" : "every word came in its order");
}
