// A plain store is announced before it is made, so its word is looked at afterwards. Else the 5 would be stored only at the end.
// Without: recorder/notes.c: wide, STORE, 0, bytes_at(at, wide) => wide, STORE, 0, a.was
#include <stdatomic.h>

static int x;

int main(void) {
    __atomic_store_n(&x, 1, __ATOMIC_RELEASE);
    x = 5;
    __atomic_load_n(&x, __ATOMIC_ACQUIRE);
    __atomic_store_n(&x, 5, __ATOMIC_RELEASE);
}
