// Accesses of several sizes to the same bytes are told at the narrowest. Else nothing but the last store would give the byte its 1.
// Without: recorder/trace.c: if (*width_at(*at) != LEFT_OUT) return *width_at(*at); => if (*width_at(*at) != LEFT_OUT) return size_of(o);
#include <stdatomic.h>
#include <stdint.h>

static union { uint64_t word; uint8_t bytes[8]; } x;

int main(void) {
    __atomic_store_n(&x.word, 0x0101010101010101, __ATOMIC_RELEASE);
    __atomic_load_n(&x.bytes[3], __ATOMIC_ACQUIRE);
    __atomic_store_n(&x.bytes[3], 1, __ATOMIC_RELEASE);
    __atomic_load_n(&x.word, __ATOMIC_ACQUIRE);
}
