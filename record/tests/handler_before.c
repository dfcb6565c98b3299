// A signal's handler comes between the call that announces a plain store and the store. Only after the handler its word is looked at. Else the word
// before it would be noted, and nothing but the last store would give the 5.
// Without: recorder/process.c: if (is_handler && file_name[0]) { => if (0 && is_handler) {
#include <signal.h>
#include <stdatomic.h>

static int x;
static atomic_int y;
void __tsan_write4(void *);

static void handler(int number) { atomic_store(&y, number); }
__attribute__((no_sanitize("thread"))) static void store_x(void) { *(volatile int *)&x = 5; }

int main(void) {
    signal(SIGUSR1, handler);
    __atomic_store_n(&x, 1, __ATOMIC_RELEASE);
    __tsan_write4(&x);
    raise(SIGUSR1);
    store_x();
    __atomic_load_n(&x, __ATOMIC_ACQUIRE);
    __atomic_store_n(&x, 5, __ATOMIC_RELEASE);
}
