// A thread's stack isn't used twice. Else the second thread's variable would be at the place of the first one's, where other code has left a 0.
// Without: recorder/threads.c: give_stack(&how); => (void)give_stack;
#include <pthread.h>
#include <stdatomic.h>
#include <stddef.h>

__attribute__((no_sanitize("thread"), noinline)) static void clear(void) {
    volatile char left[8192];
    for (unsigned i = 0; i < sizeof left; i++) left[i] = 0;
}

static void *work(void *argument) {
    atomic_int word;
    atomic_load(&word);
    atomic_store(&word, 1);
    return argument;
}
static void *cleared(void *argument) {
    clear();
    return work(argument);
}

int main(void) {
    for (int i = 0; i < 2; i++) {
        pthread_t thread;
        pthread_create(&thread, NULL, cleared, NULL);
        pthread_join(thread, NULL);
    }
}
