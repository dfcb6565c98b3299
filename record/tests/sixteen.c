// An access of 16 bytes is told as two of eight. Else nothing but the last store would give the second half its 5.
// Without: recorder/accesses.c: note(c, (u64)p + 8, 8, kind, read >> 64, v >> 64, site), => (void)0,
#include <stdatomic.h>
#include <stdint.h>

static _Alignas(16) union { unsigned __int128 both; uint64_t half[2]; } x;

int main(void) {
    __atomic_store_n(&x.both, (unsigned __int128)5 << 64 | 3, __ATOMIC_RELEASE);
    __atomic_load_n(&x.half[0], __ATOMIC_ACQUIRE);
    __atomic_load_n(&x.half[1], __ATOMIC_ACQUIRE);
    __atomic_store_n(&x.half[1], 5, __ATOMIC_RELEASE);
}
