// The calls by which a program in C puts its threads in order.
#include <pthread.h>
#include <semaphore.h>
#include <stddef.h>
#include <threads.h>
#include <time.h>
#include "orders.h"

static pthread_mutex_t mutex = PTHREAD_MUTEX_INITIALIZER;
static pthread_rwlock_t rwlock = PTHREAD_RWLOCK_INITIALIZER;
static pthread_cond_t changed = PTHREAD_COND_INITIALIZER;
static pthread_once_t once = PTHREAD_ONCE_INIT;
static pthread_spinlock_t spinlock;
static pthread_barrier_t barrier;
static sem_t semaphore;
static mtx_t mtx;
static cnd_t cnd;
static once_flag flag = ONCE_FLAG_INIT;
static const struct timespec late = {.tv_sec = 4000000000};
static int is_ready, plain;
static volatile int racing;

// Another thread runs GIVER, and this one TAKER.
#define KIND(name, GIVER, TAKER)                                                                                                                     \
    static void *name##_giver(void *it) { GIVER; return it; }                                                                                        \
    static void name(void) {                                                                                                                         \
        pthread_t thread;                                                                                                                            \
        pthread_create(&thread, NULL, name##_giver, NULL);                                                                                           \
        TAKER;                                                                                                                                       \
        pthread_join(thread, NULL);                                                                                                                  \
    }
// The giver holds a lock, and later the taker.
#define LOCKED(name, give_in, take_in, leave) KIND(name, give_in; give(); leave; tell(), wait(); take_in; take(); leave)

#define LOCK(it) pthread_mutex_##it
LOCKED(mutex_lock, LOCK(lock)(&mutex), LOCK(lock)(&mutex), LOCK(unlock)(&mutex))
LOCKED(mutex_trylock, LOCK(trylock)(&mutex), LOCK(trylock)(&mutex), LOCK(unlock)(&mutex))
LOCKED(mutex_timedlock, LOCK(timedlock)(&mutex, &late), LOCK(timedlock)(&mutex, &late), LOCK(unlock)(&mutex))
#define RWLOCK(it) pthread_rwlock_##it
LOCKED(readers, RWLOCK(wrlock)(&rwlock), RWLOCK(rdlock)(&rwlock), RWLOCK(unlock)(&rwlock))
LOCKED(readers_try, RWLOCK(trywrlock)(&rwlock), RWLOCK(tryrdlock)(&rwlock), RWLOCK(unlock)(&rwlock))
LOCKED(readers_timed, RWLOCK(timedwrlock)(&rwlock, &late), RWLOCK(timedrdlock)(&rwlock, &late), RWLOCK(unlock)(&rwlock))
LOCKED(spinlock_lock, pthread_spin_lock(&spinlock), pthread_spin_lock(&spinlock), pthread_spin_unlock(&spinlock))
LOCKED(spinlock_trylock, pthread_spin_trylock(&spinlock), pthread_spin_trylock(&spinlock), pthread_spin_unlock(&spinlock))
LOCKED(c11_lock, mtx_lock(&mtx), mtx_lock(&mtx), mtx_unlock(&mtx))
LOCKED(c11_trylock, mtx_trylock(&mtx), mtx_trylock(&mtx), mtx_unlock(&mtx))
LOCKED(c11_timedlock, mtx_timedlock(&mtx, &late), mtx_timedlock(&mtx, &late), mtx_unlock(&mtx))

KIND(semaphores, give(); sem_post(&semaphore), sem_wait(&semaphore); take())
KIND(barriers, give(); pthread_barrier_wait(&barrier), pthread_barrier_wait(&barrier); take())

// The taker has the lock first, and leaves it in its wait.
KIND(conditions, wait(); LOCK(lock)(&mutex); give(); is_ready = 1; pthread_cond_signal(&changed); LOCK(unlock)(&mutex),
     LOCK(lock)(&mutex); tell(); while (!is_ready) pthread_cond_wait(&changed, &mutex); take(); LOCK(unlock)(&mutex))
KIND(conditions_timed, wait(); LOCK(lock)(&mutex); give(); is_ready = 1; pthread_cond_signal(&changed); LOCK(unlock)(&mutex),
     LOCK(lock)(&mutex); tell(); while (!is_ready) pthread_cond_timedwait(&changed, &mutex, &late); take(); LOCK(unlock)(&mutex))
KIND(c11_conditions, wait(); mtx_lock(&mtx); give(); is_ready = 1; cnd_signal(&cnd); mtx_unlock(&mtx),
     mtx_lock(&mtx); tell(); while (!is_ready) cnd_wait(&cnd, &mtx); take(); mtx_unlock(&mtx))

KIND(once_flags, pthread_once(&once, give); tell(), wait(); pthread_once(&once, give); take())
KIND(c11_once_flags, call_once(&flag, give); tell(), wait(); call_once(&flag, give); take())

// A race of a writer and a reader.
KIND(volatiles, give(); racing = 1, while (!racing) {} take())
// These accesses are recorded with --plain alone.
KIND(plain_accesses, LOCK(lock)(&mutex); plain = 1; LOCK(unlock)(&mutex); tell(),
     wait(); LOCK(lock)(&mutex); forget(&plain); is_ready = plain; LOCK(unlock)(&mutex))

static void *taker(void *it) { take(); tell(); return it; }
static void *giver(void *it) { give(); return it; }
static int c11_taker(void *it) { take(); return it != NULL; }
static int c11_giver(void *it) { give(); return it != NULL; }

static void made(void) {
    pthread_t thread;
    give();
    pthread_create(&thread, NULL, taker, NULL);
    pthread_join(thread, NULL);
}
static void joined(void) {
    pthread_t thread;
    pthread_create(&thread, NULL, giver, NULL);
    pthread_join(thread, NULL);
    take();
}
static void c11_made(void) {
    thrd_t thread;
    give();
    thrd_create(&thread, c11_taker, NULL);
    thrd_join(thread, NULL);
}
static void c11_joined(void) {
    thrd_t thread;
    thrd_create(&thread, c11_giver, NULL);
    thrd_join(thread, NULL);
    take();
}
// Nobody joins it, so the main thread ends before it.
static void detached(void) {
    pthread_t thread;
    pthread_attr_t how;
    pthread_attr_init(&how);
    pthread_attr_setdetachstate(&how, PTHREAD_CREATE_DETACHED);
    give();
    pthread_create(&thread, &how, taker, NULL);
    pthread_exit(NULL);
}
static void detached_later(void) {
    pthread_t thread;
    give();
    pthread_create(&thread, NULL, taker, NULL);
    pthread_detach(thread);
    wait();
}

int main(int words, char **word) {
#define NAMED(it) {#it, it}
    static const kind kinds[] = {
        NAMED(mutex_lock), NAMED(mutex_trylock), NAMED(mutex_timedlock), NAMED(readers), NAMED(readers_try), NAMED(readers_timed),
        NAMED(spinlock_lock), NAMED(spinlock_trylock), NAMED(c11_lock), NAMED(c11_trylock), NAMED(c11_timedlock), NAMED(semaphores),
        NAMED(barriers), NAMED(conditions), NAMED(conditions_timed), NAMED(c11_conditions), NAMED(once_flags), NAMED(c11_once_flags),
        NAMED(volatiles), NAMED(plain_accesses), NAMED(made), NAMED(joined), NAMED(c11_made), NAMED(c11_joined), NAMED(detached),
        NAMED(detached_later),
    };
    pthread_spin_init(&spinlock, PTHREAD_PROCESS_PRIVATE);
    pthread_barrier_init(&barrier, NULL, 2);
    sem_init(&semaphore, 0, 0);
    mtx_init(&mtx, mtx_timed);
    cnd_init(&cnd);
    return run(words, word, kinds, sizeof kinds / sizeof *kinds);
}
