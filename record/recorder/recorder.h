// The recorder takes the place of ThreadSanitizer's runtime: a program that was built with -fsanitize=thread calls it at each access to memory. It
// performs the atomic accesses itself and notes what they read and stored; when the program ends, it writes that as a trace for `tardis search`.
//
// recorder.c has all of it; words.c the words that are recorded, notes.c what each thread did, accesses.c and threads.c what the program calls, process.c how a
// recording begins and ends, and trace.c how it is written. Each rule without which a no could be false is marked with "Sound:".
#ifndef RECORDER_H
#define RECORDER_H
#define _GNU_SOURCE
#include <pthread.h>
#include <stdint.h>

#ifndef __x86_64__
#error "the recorder was thought through for x86-64 alone"
#endif

typedef uint8_t u8;
typedef uint64_t u64;
__extension__ typedef unsigned __int128 u128;

enum { CORES = 64, MOST = 1 << 20, CHUNK = 1 << 16, TIME_EVERY = 64, NEAR = 1 << 12, UNSURE = 256 };
// A store may have a fence behind it. A fence alone has no address. Of what is timed, the time is taken too.
enum { LOAD = 1, STORE = 2, SWAP = LOAD | STORE, FENCE = 4, TIMED = 8 };
enum { RECORDING, STOPPED, WRITING };

// An operation. What it read and stored are the bytes at the address, as a little-endian number; `rest` is where its call returns to, its size and its
// kind. It is noted by four stores: half a store buffer may be 28 entries, and when it is full, no later load overtakes the program's own store.
typedef struct { u64 at, read, stored, rest; } operation;
#define REST(site, size, kind) ((site) | (u64)(size) << 48 | (u64)(kind) << 56)
static inline u64 site_of(const operation *o) { return o->rest & ((1ull << 48) - 1); }
static inline u64 size_of(const operation *o) { return o->rest >> 48 & 0xff; }
static inline int kind_of(const operation *o) { return o->rest >> 56; }

// Some operations of a thread, and the times of those whose time was taken: each 64th and those of locks. A clock for each hides what is looked for.
typedef struct { operation operations[CHUNK]; u64 times[CHUNK]; } chunk;

// A plain access, which the program makes after the call that announces it. `was` is what stood there before.
typedef struct { int kind; u64 at, size, was, site; } announced;

// A core of the trace: one thread, or several of which each was made after the one before had ended.
//
// Where it stands in memory matters: a processor takes a load for one of an earlier store whose last 12 bits of address are the same, and lets it wait
// until that store is done, as a fence would. So `near` begins a page, and has the entry of each word at that word's own place in its page; and what
// each operation loads and stores stands in one line of the cache. Variables at 0x900 to 0x93f in their pages show fewer reorderings.
typedef struct {
    u64 near[NEAR];             // words that were looked up lately, with their bytes
    u64 unsure[UNSURE];         // words at which an operation couldn't be noted
    chunk *chunks[MOST / CHUNK];
    u64 begun, ended;           // words that stand for the begin and the end of its thread, and count them
    void *(*run)(void *), *argument;
    pthread_t thread;
    int number, unsure_count, is_c11, state;
    _Alignas(64) volatile u64 count;
    volatile u64 busy;          // the address and the size of the operation in hand; 0: there is none
    announced next;
} core;

// A word of memory, by address / 8, with the bytes of it that are recorded and what these held before; or a lock, by its address with the top bit,
// and how often it was taken and left.
typedef struct { u64 word, first; volatile u8 bytes; } slot;

#define LOCK_BIT (1ull << 63)
enum { SLOTS = 1 << 22 };

// The program has names of its own like these.
#pragma GCC visibility push(hidden)
extern slot *slots;
extern core *cores[CORES];
extern __thread core *self __attribute__((tls_model("initial-exec")));
extern volatile int core_count, state;
extern int all_words;           // whether plain accesses to all words are recorded
extern u64 most;
extern const char *volatile trouble, *volatile lost;   // why it ended early; why there is no trace
extern char file_name[];

void *memory(u64 bytes, int at_once);
void stop(const char *why);

void finish(const char *how);
void write_trace(int count, const u64 *counts);
void prepare_threads(void);
#pragma GCC visibility pop

#define SITE ((u64)__builtin_return_address(0))
#define IN_HAND(at, size) ((at) << 6 | (size) << 1 | 1)
#define BARRIER() __asm__ volatile("" ::: "memory")    // for the compiler
#define RARE(is_so) __builtin_expect(!!(is_so), 0)
#define IN_PATH static inline __attribute__((always_inline))
// The function that this one stands before.
#define REAL(name) __extension__ ({ static __typeof__(&name) it; if (!it) it = (__typeof__(&name))dlsym(RTLD_NEXT, #name); it; })
#endif
