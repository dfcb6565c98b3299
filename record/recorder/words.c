// The words that are recorded, and what they held before.
#include "recorder.h"
#include <sys/mman.h>

slot *slots;
static u8 seen[1 << 16];        // by hash: whether a word may be recorded
static volatile int entering, entered;

void *memory(u64 bytes, int at_once) {
    int how = MAP_PRIVATE | MAP_ANONYMOUS | (at_once ? MAP_POPULATE : MAP_NORESERVE);
    void *it = mmap(0, bytes, PROT_READ | PROT_WRITE, how, -1, 0);
    return it == MAP_FAILED ? 0 : it;
}

static u64 hash(u64 word) { return (word * 0x9E3779B97F4A7C15u) >> 40; }

static slot *find(u64 word) {
    for (u64 i = hash(word) % SLOTS;; i = (i + 1) % SLOTS) {
        u64 there = __atomic_load_n(&slots[i].word, __ATOMIC_ACQUIRE);
        if (there == word) return &slots[i];
        if (!there) return 0;
    }
}

static slot *find_or_enter(u64 word) {
    for (u64 i = hash(word) % SLOTS;; i = (i + 1) % SLOTS) {
        u64 there = __atomic_load_n(&slots[i].word, __ATOMIC_ACQUIRE);
        if (!there && __atomic_compare_exchange_n(&slots[i].word, &there, word, 0, __ATOMIC_ACQ_REL, __ATOMIC_ACQUIRE)) {
            if (__atomic_add_fetch(&entered, 1, __ATOMIC_RELAXED) > SLOTS / 2) stop("more than 2,000,000 words");
            return &slots[i];
        }
        if (there == word) return &slots[i];
    }
}

// The bytes of a word that an access touches, a bit for each.
static u8 bytes_of(u64 word, u64 at, u64 size) {
    u64 from = at > word * 8 ? at - word * 8 : 0, to = at + size - word * 8;
    return (to < 8 ? (1 << to) - 1 : 0xff) & ~((1 << from) - 1);
}

static slot *is_recorded(u64 word) { return seen[hash(word) % sizeof seen] ? find(word) : NULL; }

// Whether all these bytes of a word are recorded.
static int is_known(u64 at, u64 size) {
    slot *s = is_recorded(at / 8);
    u8 bytes = bytes_of(at / 8, at, size);
    return s && (s->bytes & bytes) == bytes;
}

// Sound: what a byte holds is taken before any recorded access to it, since all of them come here first; and of the bytes beside it, which
// another thread may be about to store, nothing is taken.
static void enter(slot *s, u64 word, u8 bytes) {
    while (__atomic_exchange_n(&entering, 1, __ATOMIC_ACQUIRE)) {}
    for (int i = 0; i < 8; i++)
        if ((bytes & ~s->bytes) >> i & 1) s->first |= (u64)*(volatile u8 *)(word * 8 + i) << 8 * i;
    seen[hash(word) % sizeof seen] = 1;
    s->bytes |= bytes;
    __atomic_store_n(&entering, 0, __ATOMIC_RELEASE);
}

static __attribute__((noinline)) void know_all(core *c, u64 at, u64 size) {
    for (u64 word = at / 8; word <= (at + size - 1) / 8; word++) {
        u8 bytes = bytes_of(word, at, size);
        slot *s = find_or_enter(word);
        if ((s->bytes & bytes) != bytes) enter(s, word, bytes);
        c->near[word % NEAR] = word << 8 | s->bytes;
    }
}

IN_PATH void know(core *c, u64 at, u64 size) {
    u64 near = c->near[at / 8 % NEAR], bytes = ((1ull << size) - 1) << at % 8;
    if (RARE(near >> 8 != at / 8 || at % 8 + size > 8 || (near & bytes) != bytes)) know_all(c, at, size);
}
