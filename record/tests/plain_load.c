// A plain load is noted only if its word is still the same at the thread's next call. Here a signal comes between the call that announces the load
// and the load; its handler stores 1. Else the load of 0 would stand behind that.
// Without: recorder/notes.c: a.kind == LOAD && bytes_at(a.at, a.size) == a.was => a.kind == LOAD
#include <signal.h>
#include <stdatomic.h>

static int x;
void __tsan_read4(void *);

static void handler(int number) {
    (void)number;
    __atomic_store_n(&x, 1, __ATOMIC_RELEASE);
}

int main(void) {
    signal(SIGUSR1, handler);
    __atomic_load_n(&x, __ATOMIC_ACQUIRE);
    __tsan_read4(&x);
    raise(SIGUSR1);
    __atomic_load_n(&x, __ATOMIC_ACQUIRE);
}
