// A word that nobody is known to have stored: its address is left out of the trace.
// Without: recorder/trace.c: *width_at(at) = LEFT_OUT, *example = at, count++; => *example = at, count++;
#include <stdatomic.h>

static int x;

int main(void) {
    __atomic_store_n(&x, 1, __ATOMIC_RELEASE);
    __asm__ volatile("movl $7, %0" : "=m"(x));
    __atomic_load_n(&x, __ATOMIC_ACQUIRE);
}
