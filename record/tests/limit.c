// The recording ends in all threads at one point. Here the main thread comes to the end, and then stores 1. Else the other thread's load of that 1,
// which stands in no trace, could only have read its own later store.
// Options: --most 100
// Without: recorder/notes.c: if (n + 1 >= most) { stop( => if (n + 1 >= most) { c->count = n; (void)(
#include <pthread.h>
#include <stdatomic.h>
#include <stddef.h>

static atomic_int x, y;
static volatile int stored;

__attribute__((no_sanitize("thread"))) static void wait(void) { while (!stored) {} }
__attribute__((no_sanitize("thread"))) static void tell(void) { stored = 1; }

static void *work(void *argument) {
    wait();
    atomic_load(&x);
    atomic_store(&x, 1);
    return argument;
}

int main(void) {
    pthread_t thread;
    pthread_create(&thread, NULL, work, NULL);
    for (int i = 0; i < 200; i++) atomic_store(&y, i);
    atomic_store(&x, 1);
    tell();
    pthread_join(thread, NULL);
}
