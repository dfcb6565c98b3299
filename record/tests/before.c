// What a word holds before its first atomic access comes first in the trace. Else the load of 5 could only have read the later store.
// Without: recorder/words.c: s->first |= (u64)*(volatile u8 *)(word * 8 + i) << 8 * i; => s->first |= 0;
#include <stdatomic.h>

static int x;

int main(void) {
    x = 5;
    __atomic_load_n(&x, __ATOMIC_ACQUIRE);
    __atomic_store_n(&x, 5, __ATOMIC_RELEASE);
}
