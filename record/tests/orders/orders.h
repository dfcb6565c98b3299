// A word that one thread gives, and another takes afterwards. If it is "forgotten", somebody unseen clears it in between. Then the taker loads 0, and
// the trace has no order if it tells that the taker came after the giver: by the calls of this kind, since nothing else says so.
#include <stdio.h>
#include <string.h>

#define UNSEEN __attribute__((no_sanitize("thread"), noinline))

static int x, is_forgotten;
static volatile int told;

// One thread goes on when the other has told, and the trace doesn't say so.
UNSEEN static void tell(void) { told = 1; }
UNSEEN static void wait(void) { while (!told) {} }

static inline void forget(int *word) {
    if (is_forgotten) __asm__ volatile("movl $0, %0" : "=m"(*word));
}
static inline void give(void) { __atomic_store_n(&x, 1, __ATOMIC_RELAXED); }
static inline void take(void) {
    forget(&x);
    __atomic_load_n(&x, __ATOMIC_RELAXED);
}

typedef struct { const char *name; void (*run)(void); } kind;

// Runs the kind that the first word names; without one it prints all names.
static int run(int words, char **word, const kind *kinds, int count) {
    is_forgotten = words > 2;
    for (int i = 0; i < count; i++) {
        if (words < 2) puts(kinds[i].name);
        else if (!strcmp(word[1], kinds[i].name)) return kinds[i].run(), 0;
    }
    return words > 1;
}
