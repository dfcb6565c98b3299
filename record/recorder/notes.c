// What each thread did.
#include "recorder.h"
#include <sys/mman.h>
#include <sys/syscall.h>
#include <unistd.h>

// How many bytes writing the trace takes for an operation: a place for what it stored in a table that is half empty.
enum { TO_WRITE = 32 };

core *cores[CORES];
__thread core *self __attribute__((tls_model("initial-exec")));
volatile int core_count, state = STOPPED;
int all_words;
u64 most = 1000000;
const char *volatile trouble, *volatile lost;

// Sound: what is recorded reads only what is recorded. An operation that saw the end of the recording before it isn't noted, and one that sees it
// only afterwards keeps just its store. So whoever reads from a store that isn't noted sees the end too, since it was there before that store.
void stop(const char *why) {
    if (!trouble) trouble = why;
    if (state == RECORDING) state = STOPPED;
}

static core *new_core(void) {
    int n = __atomic_fetch_add(&core_count, 1, __ATOMIC_RELAXED);
    if (n >= CORES) return stop("a 65th thread was made, and search takes 64 at once"), NULL;
    core *c = memory(sizeof *c, 1);
    // The first chunk is there from the start, so that no page fault keeps a thread from running beside the others.
    if (!c || !(c->chunks[0] = memory(sizeof(chunk), 1))) return stop("there was no memory for one more thread"), NULL;
    c->number = n;
    __atomic_store_n(&cores[n], c, __ATOMIC_RELEASE);
    return c;
}

// Sound: at a word where an operation couldn't be noted, or not in its order, nothing is told at all.
static void leave_out(core *c, u64 at, u64 size) {
    for (u64 word = at / 8; size && word <= (at + size - 1) / 8; word++) {
        int n = __atomic_fetch_add(&c->unsure_count, 1, __ATOMIC_RELAXED);
        if (n < UNSURE) c->unsure[n] = word; else lost = "too many operations couldn't be noted";
    }
}

// Makes room for the operations behind the chunk of operation n, as long as so much memory is left as writing the trace takes. If there is none, the
// recording ends, while the rest of the chunk has room for what is under way.
static __attribute__((noinline)) void go_on(core *c, u64 n) {
    static u64 chunks;
    if (n + 1 >= most) { stop("a thread made as many operations as are recorded of one"); return; }
    u64 left = SLOTS + (core_count + __atomic_add_fetch(&chunks, 1, __ATOMIC_RELAXED)) * CHUNK * TO_WRITE;
    void *rest = memory(left, 0);
    if (rest) c->chunks[n / CHUNK + 1] = memory(sizeof(chunk), 1), syscall(SYS_munmap, rest, left);
    if (!c->chunks[n / CHUNK + 1]) stop("memory ended");
}

IN_PATH void add(core *c, u64 at, u64 size, int kind, u64 read, u64 stored, u64 site) {
    u64 n = c->count;
    chunk *in = n < MOST ? c->chunks[n / CHUNK] : NULL;
    if (RARE(!in)) { leave_out(c, at, size); return; }
    if (RARE(n % TIME_EVERY == 0) || kind & TIMED) in->times[n % CHUNK] = __builtin_ia32_rdtsc();
    __builtin_prefetch(&in->operations[n % CHUNK + 16], 1);
    in->operations[n % CHUNK] = (operation){at, read, stored, REST(site, size, kind)};
    c->count = n + 1;
    if (RARE(n + 1 >= most || n % CHUNK == CHUNK - TIME_EVERY)) go_on(c, n);
}

IN_PATH void note(core *c, u64 at, u64 size, int kind, u64 read, u64 stored, u64 site) {
    if (RARE(state != RECORDING) && !((kind &= ~LOAD) & ~TIMED)) return;
    add(c, at, size, kind, read, stored, site);
}

IN_PATH void end(core *c) {
    BARRIER();
    c->busy = 0;
}

static u64 bytes_at(u64 at, u64 size) {
    switch (size) {
    case 1: return *(volatile u8 *)at;
    case 2: return *(volatile uint16_t *)at;
    case 4: return *(volatile uint32_t *)at;
    default: return *(volatile u64 *)at;
    }
}

// Notes what a plain store left, in aligned parts of which all bytes are recorded.
static void note_stored(core *c, announced a) {
    for (u64 at = a.at, wide; at < a.at + a.size; at += wide) {
        for (wide = 8; wide > 1 && (at % wide || a.at + a.size - at < wide || !is_known(at, wide)); wide /= 2) {}
        if (is_known(at, wide)) add(c, at, wide, STORE, 0, bytes_at(at, wide), a.site);
    }
}

// Notes the plain access that was announced.
// Sound: a load is noted only if the word is still the same, and so this thread reads it here. A store left what stands there now, unless it races.
static void settle(core *c) {
    announced a = c->next;
    c->next.kind = 0;
    if (a.kind == STORE) note_stored(c, a);
    if (a.kind == LOAD && bytes_at(a.at, a.size) == a.was) note(c, a.at, a.size, LOAD, a.was, 0, a.site);
}

// Does what has to be done before an operation, which is rare; NULL if it isn't to be noted.
static __attribute__((noinline)) core *prepare(u64 at, u64 size) {
    core *c = self;
    if (state != RECORDING && !(c && c->next.kind)) return NULL;
    if (!c && !(c = self = new_core())) return NULL;
    // Sound: a signal's handler came into the middle of an operation. Which of the two was first isn't known.
    if (c->busy) return leave_out(c, at, size), NULL;
    c->busy = IN_HAND(0ull, 0ull);
    BARRIER();
    if (c->next.kind && state != WRITING) settle(c);
    end(c);
    return state == RECORDING ? c : NULL;
}

// Begins an operation that accesses these bytes, if any; NULL if it isn't to be noted.
IN_PATH core *begin(u64 at, u64 size) {
    core *c = self;
    if (RARE(state != RECORDING || !c || c->busy || c->next.kind) && !(c = prepare(at, size))) return NULL;
    c->busy = IN_HAND(at, size);
    BARRIER();
    if (RARE(state != RECORDING)) return end(c), NULL;
    if (size) know(c, at, size);
    BARRIER();
    return c;
}

// Remembers a plain access, which the program makes next. `always`: its bytes are recorded from now on, if they weren't.
static void announce(u64 at, u64 size, int kind, u64 site, int always) {
    int is_one = (size & (size - 1)) == 0 && at % 8 + size <= 8, known = always || (is_one && is_known(at, size)), busy = self && self->busy;
    for (u64 word = at / 8; kind == STORE && (busy || !known) && word <= (at + size - 1) / 8; word++) {
        if (!is_recorded(word)) continue;
        known = 1;
        if (busy) leave_out(self, word * 8, 8);
    }
    core *c = known && (kind == STORE || is_one) ? begin(at, always ? size : 0) : NULL;
    if (!c) return;
    c->next = (announced){kind, at, size, kind == LOAD ? bytes_at(at, size) : 0, site};
    end(c);
}

// The C library wrote these bytes for the program.
static void wrote(void *at, u64 size, u64 site) {
    if (state == RECORDING && self && size) announce((u64)at, size, STORE, site, 0);
}
