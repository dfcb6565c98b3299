// Locks and threads: what their calls put in order, as swaps, stores and loads of words of their own.
#include "recorder.h"
#include <dlfcn.h>
#include <errno.h>
#include <limits.h>
#include <sched.h>
#include <semaphore.h>
#include <sys/mman.h>
#include <threads.h>

// Counts how often a lock was taken and left, while it is held.
// Sound: that is really done, so the trace is that of the program with these swaps.
static void meet(const volatile void *lock, u64 site) {
    core *c = begin(0, 0);
    if (!c) return;
    slot *s = find_or_enter((u64)lock | LOCK_BIT);
    u64 n = __atomic_fetch_add(&s->first, 1, __ATOMIC_SEQ_CST);
    note(c, (u64)lock | LOCK_BIT, 8, SWAP | TIMED, n, n + 1, site);
    end(c);
}

#define LOCK(name, T) int name(T *l) { int e = REAL(name)(l); if (!e) meet(l, SITE); return e; }
#define UNLOCK(name, T) int name(T *l) { meet(l, SITE); return REAL(name)(l); }
#define TIMED(name, T) int name(T *restrict l, const struct timespec *restrict t) { int e = REAL(name)(l, t); if (!e) meet(l, SITE); return e; }
#define CLOCK(name, T) int name(T *l, clockid_t k, const struct timespec *t) { int e = REAL(name)(l, k, t); if (!e) meet(l, SITE); return e; }
LOCK(pthread_mutex_lock, pthread_mutex_t) LOCK(pthread_mutex_trylock, pthread_mutex_t) UNLOCK(pthread_mutex_unlock, pthread_mutex_t)
TIMED(pthread_mutex_timedlock, pthread_mutex_t) CLOCK(pthread_mutex_clocklock, pthread_mutex_t)
LOCK(pthread_rwlock_rdlock, pthread_rwlock_t) LOCK(pthread_rwlock_tryrdlock, pthread_rwlock_t) TIMED(pthread_rwlock_timedrdlock, pthread_rwlock_t)
LOCK(pthread_rwlock_wrlock, pthread_rwlock_t) LOCK(pthread_rwlock_trywrlock, pthread_rwlock_t) TIMED(pthread_rwlock_timedwrlock, pthread_rwlock_t)
UNLOCK(pthread_rwlock_unlock, pthread_rwlock_t)
LOCK(pthread_spin_lock, pthread_spinlock_t) LOCK(pthread_spin_trylock, pthread_spinlock_t) UNLOCK(pthread_spin_unlock, pthread_spinlock_t)
LOCK(sem_wait, sem_t) LOCK(sem_trywait, sem_t) TIMED(sem_timedwait, sem_t) CLOCK(sem_clockwait, sem_t) UNLOCK(sem_post, sem_t)
LOCK(mtx_lock, mtx_t) LOCK(mtx_trylock, mtx_t) TIMED(mtx_timedlock, mtx_t) UNLOCK(mtx_unlock, mtx_t)

int pthread_barrier_wait(pthread_barrier_t *b) {
    meet(b, SITE);
    int e = REAL(pthread_barrier_wait)(b);
    meet(b, SITE);
    return e;
}

// A wait for a condition leaves the lock and takes it again.
#define WAIT(real, l, ...) __extension__ ({ meet(l, SITE); int e_ = (real)(__VA_ARGS__); meet(l, SITE); e_; })
#define REAL_OF(name, version) __extension__ (__typeof__(&name))dlvsym(RTLD_NEXT, #name, version)
int pthread_cond_wait(pthread_cond_t *w, pthread_mutex_t *l) { return WAIT(REAL_OF(pthread_cond_wait, "GLIBC_2.3.2"), l, w, l); }
int pthread_cond_timedwait(pthread_cond_t *w, pthread_mutex_t *l, const struct timespec *t) {
    return WAIT(REAL_OF(pthread_cond_timedwait, "GLIBC_2.3.2"), l, w, l, t);
}
int pthread_cond_clockwait(pthread_cond_t *w, pthread_mutex_t *l, clockid_t k, const struct timespec *t) {
    return WAIT(REAL(pthread_cond_clockwait), l, w, l, k, t);
}
int cnd_wait(cnd_t *w, mtx_t *l) { return WAIT(REAL(cnd_wait), l, w, l); }
int cnd_timedwait(cnd_t *w, mtx_t *l, const struct timespec *t) { return WAIT(REAL(cnd_timedwait), l, w, l, t); }

// A once-flag is met when its function has run, before anybody goes on.
static __thread struct { void (*run)(void); void *flag; } once;
static void run_once(void) { void *flag = once.flag; once.run(); meet(flag, SITE); }
int pthread_once(pthread_once_t *flag, void (*run)(void)) {
    once.run = run, once.flag = flag;
    int e = REAL(pthread_once)(flag, run_once);
    meet(flag, SITE);
    return e;
}
void call_once(once_flag *flag, void (*run)(void)) { pthread_once((pthread_once_t *)flag, run); }

// The guard of a static variable in C++, which else the library alone would store.
void __tsan_atomic8_store(volatile u8 *p, u8 v, int order);
void __cxa_guard_release(u8 *guard);
void __cxa_guard_release(u8 *guard) {
    __tsan_atomic8_store(guard, 1, __ATOMIC_RELEASE);
    REAL(__cxa_guard_release)(guard);
}

// A thread's begin and end are words. The parent stores the one that the thread loads first, and loads the one that it stored last.
static void tell(u64 *word, u64 site) {
    core *c = begin((u64)word, 8);
    u64 v = *word + 1;
    __atomic_store_n(word, v, __ATOMIC_RELEASE);
    if (c) note(c, (u64)word, 8, STORE | TIMED, 0, v, site), end(c);
}
static void hear(u64 *word, u64 site) {
    core *c = begin((u64)word, 8);
    u64 v = __atomic_load_n(word, __ATOMIC_ACQUIRE);
    if (c) note(c, (u64)word, 8, LOAD | TIMED, v, 0, site), end(c);
}

// Cores whose threads have ended. Whoever gives one back and whoever takes it meet, so that the trace says which thread was there first.
static core *spare[CORES];
static int spares, is_spare_busy;
static void lock_spares(void) { while (__atomic_exchange_n(&is_spare_busy, 1, __ATOMIC_ACQUIRE)) sched_yield(); }
static void unlock_spares(void) { __atomic_store_n(&is_spare_busy, 0, __ATOMIC_RELEASE); }
static void give_back(core *c, u64 site) {
    lock_spares();
    meet(spare, site);
    if (c == self) self = NULL;
    spare[spares++] = c;
    unlock_spares();
}
static core *take_core(u64 site) {
    lock_spares();
    core *c = spares ? spare[--spares] : NULL;
    if (c) meet(spare, site);
    unlock_spares();
    return c ? c : new_core();
}

enum { RUNS, ENDED, DETACHED };
static pthread_key_t at_end;
static void thread_end(void *it) {
    static __thread int rounds;
    core *c = it;
    if (++rounds < PTHREAD_DESTRUCTOR_ITERATIONS && !pthread_setspecific(at_end, c)) return;    // the program's own destructors come first
    tell(&c->ended, (u64)c->run);
    if (__atomic_exchange_n(&c->state, ENDED, __ATOMIC_ACQ_REL) == DETACHED) give_back(c, (u64)c->run);
    self = NULL;
}
static void *thread_main(void *it) {
    core *c = self = it;
    pthread_setspecific(at_end, c);
    hear(&c->begun, (u64)c->run);
    return c->is_c11 ? (void *)(intptr_t)((thrd_start_t)(void (*)(void))c->run)(c->argument) : c->run(c->argument);
}
void prepare_threads(void) { pthread_key_create(&at_end, thread_end); }

// Sound: a stack, and a thread's own variables in it, are at addresses that nobody had before.
static void give_stack(pthread_attr_t *how) {
    size_t bytes;
    pthread_attr_getstacksize(how, &bytes);
    void *stack = memory(bytes, 0);
    if (stack && !mprotect(stack, 4096, PROT_NONE)) pthread_attr_setstack(how, stack, bytes);
}

static int create(pthread_t *id, const pthread_attr_t *wish, void *(*run)(void *), void *argument, int is_c11, u64 site) {
    core *c = state == RECORDING ? take_core(site) : NULL;
    if (!c) return is_c11 ? REAL(thrd_create)(id, (thrd_start_t)(void (*)(void))run, argument) : REAL(pthread_create)(id, wish, run, argument);
    pthread_attr_t how;
    int detached;
    if (wish) how = *wish; else pthread_attr_init(&how);
    give_stack(&how);
    pthread_attr_getdetachstate(&how, &detached);
    c->run = run, c->argument = argument, c->is_c11 = is_c11, c->state = detached == PTHREAD_CREATE_DETACHED ? DETACHED : RUNS;
    tell(&c->begun, site);
    int e = REAL(pthread_create)(id, &how, thread_main, c);
    if (e) give_back(c, site); else c->thread = *id;
    return !is_c11 || !e ? e : e == ENOMEM ? thrd_nomem : thrd_error;
}
int pthread_create(pthread_t *id, const pthread_attr_t *wish, void *(*run)(void *), void *argument) { return create(id, wish, run, argument, 0, SITE); }
int thrd_create(thrd_t *id, thrd_start_t run, void *argument) { return create(id, NULL, (void *(*)(void *))(void (*)(void))run, argument, 1, SITE); }

static core *core_of(pthread_t id) {
    for (int i = 0; i < core_count && i < CORES; i++)
        if (cores[i] && cores[i]->thread == id) return cores[i];
    return NULL;
}
static void joined(core *c, u64 site) {
    if (!c) return;
    c->thread = 0;
    hear(&c->ended, site);
    give_back(c, site);
}
int pthread_join(pthread_t id, void **result) {
    core *c = core_of(id);
    int e = REAL(pthread_join)(id, result);
    if (!e) joined(c, SITE);
    return e;
}
int thrd_join(thrd_t id, int *result) {
    core *c = core_of(id);
    int e = REAL(thrd_join)(id, result);
    if (e == thrd_success) joined(c, SITE);
    return e;
}
int pthread_detach(pthread_t id) {
    core *c = core_of(id);
    int e = REAL(pthread_detach)(id);
    if (c && !e && __atomic_exchange_n(&c->state, DETACHED, __ATOMIC_ACQ_REL) == ENDED) joined(c, SITE);
    return e;
}
int thrd_detach(thrd_t id) { return pthread_detach(id) ? thrd_error : thrd_success; }
