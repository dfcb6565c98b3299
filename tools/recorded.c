// Programs of lock-free code, to be recorded: FAMILY THREADS OPERATIONS. Each thread ends when it has made its share of the operations.
#include <pthread.h>
#include <sched.h>
#include <stdatomic.h>
#include <stdlib.h>
#include <string.h>

enum { MOST = 64, ROOM = 8, OBJECTS = 4 };
static int threads;
static long share;
static __thread int me;
static __thread long made;
#define LOAD(it, order) (made++, atomic_load_explicit(&(it), memory_order_##order))
#define STORE(it, word, order) (made++, atomic_store_explicit(&(it), word, memory_order_##order))
#define ADD(it, n, order) (made++, atomic_fetch_add_explicit(&(it), n, memory_order_##order))

// A lock keeps two counters.
static struct { _Alignas(64) atomic_uint once, twice; } counters[MOST];
static void count(int which) {
    STORE(counters[which].once, LOAD(counters[which].once, relaxed) + 1, relaxed);
    STORE(counters[which].twice, LOAD(counters[which].twice, relaxed) + 2, relaxed);
}

static _Alignas(64) atomic_uint next_ticket, served;
static void ticket(void) {
    unsigned mine = ADD(next_ticket, 1, relaxed);
    while (LOAD(served, acquire) != mine) sched_yield();
    count(0);
    STORE(served, mine + 1, release);
}

static _Alignas(64) atomic_int held;
static void spin(void) {
    while (made++, atomic_exchange_explicit(&held, 1, memory_order_acquire)) while (LOAD(held, relaxed)) sched_yield();
    count(0);
    STORE(held, 0, release);
}

// Lamport's bakery, with a fence behind each store.
static struct { _Alignas(64) atomic_int chooses; atomic_uint number; } desks[MOST];
static void bakery(void) {
    unsigned number = 0, other;
    STORE(desks[me].chooses, 1, seq_cst);
    for (int i = 0; i < threads; i++) if ((other = LOAD(desks[i].number, relaxed)) > number) number = other;
    STORE(desks[me].number, ++number, seq_cst);
    STORE(desks[me].chooses, 0, seq_cst);
    for (int i = 0; i < threads; i++) {
        while (LOAD(desks[i].chooses, acquire)) sched_yield();
        while ((other = LOAD(desks[i].number, acquire)) && (other < number || (other == number && i < me))) sched_yield();
    }
    count(0);
    STORE(desks[me].number, 0, release);
}

// Dekker's lock between two threads each, which needs a fence behind the store of a flag. In the last tenth there is none, and updates are lost.
static struct { _Alignas(64) atomic_int wants[2]; _Alignas(64) atomic_int turn; } pairs[MOST];
static void want(int pair, int side) {
    STORE(pairs[pair].wants[side], 1, relaxed);
    if (made < share - share / 10) atomic_thread_fence(memory_order_seq_cst);
}
static void dekker(void) {
    int pair = me / 2, side = me % 2;
    want(pair, side);
    while (LOAD(pairs[pair].wants[1 - side], acquire)) {
        if (LOAD(pairs[pair].turn, relaxed) == side) continue;
        STORE(pairs[pair].wants[side], 0, relaxed);
        while (LOAD(pairs[pair].turn, relaxed) != side) sched_yield();
        want(pair, side);
    }
    count(pair);
    STORE(pairs[pair].turn, 1 - side, relaxed);
    STORE(pairs[pair].wants[side], 0, release);
}

// Each thread has a ring to the next one.
static struct { _Alignas(64) atomic_uint head; _Alignas(64) atomic_uint tail; atomic_int words[ROOM]; } rings[MOST];
static void ring(void) {
    unsigned own = me, from = (me + threads - 1) % threads, tail = LOAD(rings[own].tail, relaxed), head = LOAD(rings[from].head, relaxed);
    if (tail - LOAD(rings[own].head, acquire) < ROOM) {
        STORE(rings[own].words[tail % ROOM], tail, relaxed);
        STORE(rings[own].tail, tail + 1, release);
    }
    if (LOAD(rings[from].tail, acquire) == head) { sched_yield(); return; }
    LOAD(rings[from].words[head % ROOM], relaxed);
    STORE(rings[from].head, head + 1, release);
}

// Objects that several threads hold. Whoever lets go last makes a new one.
static struct { _Alignas(64) atomic_int references, content; } objects[OBJECTS];
static void reference(void) {
    unsigned it = (made * 7 + me) % OBJECTS;
    ADD(objects[it].references, 1, relaxed);
    int content = LOAD(objects[it].content, relaxed);
    if (ADD(objects[it].references, -1, acq_rel) == 1) STORE(objects[it].content, content + 1, release);
}

static const struct { const char *name; void (*round)(void); } families[] = {
    {"ticket", ticket}, {"spin", spin}, {"bakery", bakery}, {"dekker", dekker}, {"rings", ring}, {"references", reference},
};
static void (*family)(void);

// They begin at about the same time. That isn't recorded.
static volatile int arrived;
__attribute__((no_sanitize("thread"))) static void meet(void) {
    __asm__ volatile("lock incl %0" : "+m"(arrived));
    while (arrived < threads) sched_yield();
}

static void *work(void *number) {
    me = (int)(long)number;
    meet();
    while (made < share) family();
    return NULL;
}

int main(int count_, char **words) {
    pthread_t ids[MOST];
    if (count_ != 4 || (threads = atoi(words[2])) < 1 || threads > MOST) return 3;
    share = atol(words[3]) / threads;
    for (unsigned i = 0; i < sizeof families / sizeof *families; i++) if (!strcmp(words[1], families[i].name)) family = families[i].round;
    if (!family) return 3;
    for (long i = 0; i < threads; i++) pthread_create(&ids[i], NULL, work, (void *)i);
    for (int i = 0; i < threads; i++) pthread_join(ids[i], NULL);
}
