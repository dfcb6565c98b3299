// A lock is a word that counts how often it was taken and left, and that is really counted. Else both takings would read the same number.
// Without: recorder/threads.c: u64 n = __atomic_fetch_add(&s->first, 1, __ATOMIC_SEQ_CST); => u64 n = 0; (void)s;
#include <pthread.h>

static pthread_mutex_t lock = PTHREAD_MUTEX_INITIALIZER;
static int held;

static void *work(void *argument) {
    for (int i = 0; i < 20; i++) {
        pthread_mutex_lock(&lock);
        held++;
        pthread_mutex_unlock(&lock);
    }
    return argument;
}

int main(void) {
    pthread_t threads[2];
    for (int i = 0; i < 2; i++) pthread_create(&threads[i], 0, work, 0);
    for (int i = 0; i < 2; i++) pthread_join(threads[i], 0);
    return held != 40;
}
