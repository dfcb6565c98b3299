// What the program calls at its accesses to memory.
#include "recorder.h"
#include <string.h>

// Plain accesses -----------------------------------------------------------------------------------------------------------------------------------

#define HOOK(name, size, kind, always) void __tsan_##name(void *p) { if (state == RECORDING) announce((u64)p, size, kind, SITE, always); }
#define PLAIN(N)                                                                                                                                      \
    HOOK(read##N, N, LOAD, all_words) HOOK(write##N, N, STORE, all_words)                                                                             \
    HOOK(unaligned_read##N, N, LOAD, all_words) HOOK(unaligned_write##N, N, STORE, all_words)                                                         \
    HOOK(volatile_read##N, N, LOAD, 1) HOOK(volatile_write##N, N, STORE, 1)                                                                           \
    HOOK(unaligned_volatile_read##N, N, LOAD, 1) HOOK(unaligned_volatile_write##N, N, STORE, 1)                                                       \
    HOOK(read_write##N, N, STORE, all_words) HOOK(unaligned_read_write##N, N, STORE, all_words)
PLAIN(1) PLAIN(2) PLAIN(4) PLAIN(8) PLAIN(16) HOOK(vptr_read, 8, LOAD, all_words)
void __tsan_vptr_update(void *p, void *to) { (void)to; if (state == RECORDING) announce((u64)p, 8, STORE, SITE, all_words); }
void __tsan_read_range(void *p, u64 n) { (void)p, (void)n; }
void __tsan_write_range(void *p, u64 n) { if (state == RECORDING && n) announce((u64)p, n, STORE, SITE, 0); }

// What only a detector of races needs.
#define NOTHING(name) void __tsan_##name(void *p) { (void)p; }
NOTHING(func_entry) NOTHING(acquire) NOTHING(release) void __tsan_func_exit(void) {} void __tsan_atomic_signal_fence(int order) { (void)order; }
void __tsan_ignore_thread_begin(void) {} void __tsan_ignore_thread_end(void) {}

// What the C library writes for the program, in assembly, so that no compiler makes a call of it.
static void *copy(void *to, const void *from, size_t n, u64 site) {
    void *p = to;
    u64 left = n;
    if ((u64)to - (u64)from >= n) __asm__ volatile("rep movsb" : "+D"(to), "+S"(from), "+c"(left) : : "memory");
    else for (u64 i = n; i-- > 0;) ((volatile char *)to)[i] = ((const volatile char *)from)[i];
    return wrote(p, n, site), p;
}
static void *fill(void *to, int with, size_t n, u64 site) {
    void *p = to;
    u64 left = n;
    __asm__ volatile("rep stosb" : "+D"(to), "+c"(left) : "a"(with) : "memory");
    return wrote(p, n, site), p;
}
void *memset(void *to, int with, size_t n) { return fill(to, with, n, SITE); }
void *memmove(void *to, const void *from, size_t n) { return copy(to, from, n, SITE); }
void *memcpy(void *restrict to, const void *restrict from, size_t n) { return copy(to, from, n, SITE); }
void *mempcpy(void *restrict to, const void *restrict from, size_t n) { return (char *)copy(to, from, n, SITE) + n; }
void bzero(void *to, size_t n) { fill(to, 0, n, SITE); }
// With a program's _FORTIFY_SOURCE.
void *__memset_chk(void *to, int with, size_t n, size_t most_) { return n > most_ ? __builtin_trap(), to : fill(to, with, n, SITE); }
void *__memmove_chk(void *to, const void *from, size_t n, size_t most_) { return n > most_ ? __builtin_trap(), to : copy(to, from, n, SITE); }
void *__memcpy_chk(void *to, const void *from, size_t n, size_t most_) { return n > most_ ? __builtin_trap(), to : copy(to, from, n, SITE); }

// Atomic accesses ----------------------------------------------------------------------------------------------------------------------------------

// The access is made with the order that the program asks for. (Where an order isn't a constant, compilers take the strongest.)
#define IN_ORDER(order, PERFORM)                                                                                                                      \
    switch (order) {                                                                                                                                  \
    case __ATOMIC_RELAXED: PERFORM(__ATOMIC_RELAXED); break;                                                                                          \
    case __ATOMIC_CONSUME: case __ATOMIC_ACQUIRE: PERFORM(__ATOMIC_ACQUIRE); break;                                                                   \
    case __ATOMIC_RELEASE: PERFORM(__ATOMIC_RELEASE); break;                                                                                          \
    case __ATOMIC_ACQ_REL: PERFORM(__ATOMIC_ACQ_REL); break;                                                                                          \
    default: PERFORM(__ATOMIC_SEQ_CST);                                                                                                               \
    }
#define BEGIN core *c = begin((u64)p, sizeof *p)
#define END(kind, read, stored) if (c) note(c, (u64)p, sizeof *p, kind, read, stored, SITE), end(c)

#define DO_load(order) read = __atomic_load_n(p, (order) == __ATOMIC_RELEASE || (order) == __ATOMIC_ACQ_REL ? __ATOMIC_ACQUIRE : (order))
#define DO_store(order) __atomic_store_n(p, v, (order) == __ATOMIC_ACQUIRE || (order) == __ATOMIC_ACQ_REL ? __ATOMIC_RELEASE : (order))
#define DO_exchange(order) read = __atomic_exchange_n(p, v, order)
#define DO_strong(order) done = __atomic_compare_exchange_n(p, old, v, 0, order, __ATOMIC_RELAXED)
#define DO_weak(order) done = __atomic_compare_exchange_n(p, old, v, 1, order, __ATOMIC_RELAXED)
#define DO_add(order) read = __atomic_fetch_add(p, v, order)
#define DO_sub(order) read = __atomic_fetch_sub(p, v, order)
#define DO_and(order) read = __atomic_fetch_and(p, v, order)
#define DO_or(order) read = __atomic_fetch_or(p, v, order)
#define DO_xor(order) read = __atomic_fetch_xor(p, v, order)
#define DO_nand(order) read = __atomic_fetch_nand(p, v, order)

#define SWAPS(N, T, name, PERFORM, left) T __tsan_atomic##N##_##name(volatile T *p, T v, int order) {                                                 \
        T read; BEGIN; IN_ORDER(order, PERFORM) END(SWAP, read, (T)(left)); return read; }
#define COMPARES(N, T, name) int __tsan_atomic##N##_compare_exchange_##name(volatile T *p, T *old, T v, int order, int fail) {                        \
        int done; (void)fail; BEGIN; IN_ORDER(order, DO_##name) END(done ? SWAP : LOAD, *old, v); return done; }
#define ATOMIC(N, T)                                                                                                                                  \
    T __tsan_atomic##N##_load(const volatile T *p, int order) { T read; BEGIN; IN_ORDER(order, DO_load) END(LOAD, read, 0); return read; }            \
    void __tsan_atomic##N##_store(volatile T *p, T v, int order) {                                                                                    \
        BEGIN; IN_ORDER(order, DO_store) END(order == __ATOMIC_SEQ_CST ? STORE | FENCE : STORE, 0, v); }                                              \
    SWAPS(N, T, exchange, DO_exchange, v) SWAPS(N, T, fetch_add, DO_add, read + v) SWAPS(N, T, fetch_sub, DO_sub, read - v)                           \
    SWAPS(N, T, fetch_and, DO_and, read & v) SWAPS(N, T, fetch_or, DO_or, read | v) SWAPS(N, T, fetch_xor, DO_xor, read ^ v)                          \
    SWAPS(N, T, fetch_nand, DO_nand, ~(read & v)) COMPARES(N, T, strong) COMPARES(N, T, weak)                                                         \
    T __tsan_atomic##N##_compare_exchange_val(volatile T *p, T v, T to, int order, int fail) {                                                        \
        T *old = &v; int done; (void)fail; BEGIN;                                                                                                     \
        { T v = to; IN_ORDER(order, DO_strong) }                                                                                                      \
        END(done ? SWAP : LOAD, *old, to); return *old; }
ATOMIC(8, uint8_t) ATOMIC(16, uint16_t) ATOMIC(32, uint32_t) ATOMIC(64, uint64_t)

// Sound: 16 bytes are one access of the processor, and noted as two of eight bytes. That says less than was done.
static int swap16(volatile u128 *p, u128 *old, u128 v, u64 site) {
    core *c = begin((u64)p, 16);
    u128 read = __sync_val_compare_and_swap(p, *old, v);
    int done = read == *old, kind = done ? SWAP : LOAD;
    if (c) note(c, (u64)p, 8, kind, read, v, site), note(c, (u64)p + 8, 8, kind, read >> 64, v >> 64, site), end(c);
    *old = read;
    return done;
}
typedef volatile u128 *at16;
u128 __tsan_atomic128_load(at16 p, int order) { (void)order; u128 v = 0; swap16(p, &v, 0, SITE); return v; }
#define LOOP16(name, left) u128 __tsan_atomic128_##name(at16 p, u128 v, int order) {                                                                  \
        (void)order; u128 read = *p; while (!swap16(p, &read, left, SITE)) {} return read; }
LOOP16(exchange, v) LOOP16(fetch_add, read + v) LOOP16(fetch_sub, read - v) LOOP16(fetch_and, read & v) LOOP16(fetch_or, read | v)
LOOP16(fetch_xor, read ^ v) LOOP16(fetch_nand, ~(read & v))
void __tsan_atomic128_store(at16 p, u128 v, int order) { (void)order; u128 was = *p; while (!swap16(p, &was, v, SITE)) {} }
int __tsan_atomic128_compare_exchange_strong(at16 p, u128 *old, u128 v, int order, int fail) { (void)order, (void)fail; return swap16(p, old, v, SITE); }
int __tsan_atomic128_compare_exchange_weak(at16 p, u128 *old, u128 v, int order, int fail) { (void)order, (void)fail; return swap16(p, old, v, SITE); }
u128 __tsan_atomic128_compare_exchange_val(at16 p, u128 old, u128 v, int order, int fail) { (void)order, (void)fail; swap16(p, &old, v, SITE); return old; }

void __tsan_atomic_thread_fence(int order) {
    core *c = begin(0, 0);
    if (order == __ATOMIC_SEQ_CST) __atomic_thread_fence(__ATOMIC_SEQ_CST); else __atomic_thread_fence(__ATOMIC_ACQ_REL);
    if (c && order == __ATOMIC_SEQ_CST) note(c, 0, 0, FENCE, 0, 0, SITE);
    if (c) end(c);
}
