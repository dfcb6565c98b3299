// Of a word only the bytes are recorded that were accessed atomically. Here a plain store of `b` is under way, and was announced, when `a` beside it is
// accessed for the first time, as another thread may do. Else the word that `b` had before would count as its first, and 5 as stored later.
// Without: recorder/words.c: u8 bytes = bytes_of(word, at, size);\n        slot => u8 bytes = 0xff; (void)bytes_of;\n        slot
#include <stdatomic.h>

static struct { _Alignas(8) int a; int b; } both;
void __tsan_write4(void *);

__attribute__((no_sanitize("thread"))) static void store_b(void) { *(volatile int *)&both.b = 5; }

int main(void) {
    __tsan_write4(&both.b);
    __atomic_store_n(&both.a, 1, __ATOMIC_RELEASE);
    store_b();
    __atomic_load_n(&both.b, __ATOMIC_ACQUIRE);
    __atomic_store_n(&both.b, 5, __ATOMIC_RELEASE);
}
