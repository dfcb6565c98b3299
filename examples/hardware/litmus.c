// Runs the programs of a litmus test on threads of this processor, round after round, and prints what each round read.
//
//     litmus ROUNDS pinned|free SEED
//
// The script `litmus` writes the test as C into `test.h`: how many CORES, ADDRESSES and READS it has, the addresses of which
// it wants the FINAL words, the initial word of each address, and a function for each core. Each round has words of its own.
// A line for each round has the words that its loads, swaps and additions read, core by core in program order, 0 for one that
// was skipped; then the final words.

#define _GNU_SOURCE
#include <pthread.h>
#include <sched.h>
#include <stdatomic.h>
#include <stdint.h>
#include <stdio.h>
#include <stdlib.h>
#include <string.h>

// How often a thread looks for the others before it lets another program go on.
enum { LOOKS = 4000 };
// The most turns of a loop that a thread waits before a round.
enum { MOST_TURNS = 64 };

// A word with a cache line of its own.
typedef struct {
  _Alignas(64) _Atomic uint64_t word;
} Cell;

// The compiler keeps the order of these, and the processor does what it does.
static inline void keep_order(void) { atomic_signal_fence(memory_order_seq_cst); }

static inline uint64_t load(Cell *cell) {
  uint64_t word = atomic_load_explicit(&cell->word, memory_order_relaxed);
  keep_order();
  return word;
}

static inline void store(Cell *cell, uint64_t word) {
  atomic_store_explicit(&cell->word, word, memory_order_relaxed);
  keep_order();
}

static inline uint64_t swap(Cell *cell, uint64_t word) {
  uint64_t old = atomic_exchange_explicit(&cell->word, word, memory_order_seq_cst);
  keep_order();
  return old;
}

static inline uint64_t add(Cell *cell, uint64_t word) {
  uint64_t old = atomic_fetch_add_explicit(&cell->word, word, memory_order_seq_cst);
  keep_order();
  return old;
}

static inline void fence(void) { atomic_thread_fence(memory_order_seq_cst); }

// C has no fence of stores alone, nor of loads; these keep at least their order.
static inline void store_fence(void) { atomic_thread_fence(memory_order_release); }
static inline void load_fence(void) { atomic_thread_fence(memory_order_acquire); }

static long rounds;
static uint64_t seed;
static int pinned;
static Cell *cells;
static uint64_t *reads;
static atomic_long arrived;

// A core's program. It is given the words of its round, and puts what read `i` has at `read[i * rounds]`.
typedef void Program(Cell *cell, uint64_t *read);

#include "test.h"

// A number that looks drawn, by the generator xorshift64*.
static uint64_t draw(uint64_t *state) {
  *state ^= *state >> 12;
  *state ^= *state << 25;
  *state ^= *state >> 27;
  return *state * 0x2545F4914F6CDD1Dull >> 32;
}

// Waits until all threads have come to a round.
static void meet(long round) {
  long due = (round + 1) * CORES;
  atomic_fetch_add(&arrived, 1);
  for (int looks = 0; atomic_load_explicit(&arrived, memory_order_acquire) < due; looks++)
    if (looks >= LOOKS) sched_yield();
}

// Puts the calling thread on one of the processors that this program may use.
static void pin(int core) {
#ifdef __linux__
  cpu_set_t allowed, own;
  if (sched_getaffinity(0, sizeof allowed, &allowed) != 0) exit(4);
  int place = core % CPU_COUNT(&allowed), processor = 0;
  while (!CPU_ISSET(processor, &allowed) || place-- > 0) processor++;
  CPU_ZERO(&own);
  CPU_SET(processor, &own);
  if (pthread_setaffinity_np(pthread_self(), sizeof own, &own) == 0) return;
#endif
  fprintf(stderr, "litmus: thread %d can't be pinned\n", core);
  exit(4);
}

static void *run(void *number) {
  int core = (int)(intptr_t)number;
  uint64_t state = (seed + 1) * 0x9E3779B97F4A7C15ull + (uint64_t)(core + 1) * 0xBF58476D1CE4E5B9ull;
  if (state == 0) state = 1;
  if (pinned) pin(core);
  for (long round = 0; round < rounds; round++) {
    uint64_t turns = draw(&state) % MOST_TURNS;
    meet(round);
    for (volatile uint64_t turn = 0; turn < turns; turn++) {
    }
    programs[core](cells + round * ADDRESSES, reads + round);
  }
  return NULL;
}

static void *memory(size_t size) {
  void *memory = aligned_alloc(64, (size + 63) / 64 * 64);
  if (memory == NULL) {
    fprintf(stderr, "litmus: no memory for as many rounds\n");
    exit(4);
  }
  return memset(memory, 0, size);
}

int main(int count, char **words) {
  if (count != 4) return 3;
  rounds = atol(words[1]);
  pinned = strcmp(words[2], "pinned") == 0;
  seed = strtoull(words[3], NULL, 10);
  cells = memory(sizeof(Cell) * (size_t)rounds * ADDRESSES);
  for (long i = 0; i < rounds * ADDRESSES; i++) store(&cells[i], initial[i % ADDRESSES]);
  reads = memory(sizeof(uint64_t) * (size_t)rounds * (READS + 1));
  pthread_t threads[CORES];
  for (int core = 0; core < CORES; core++)
    if (pthread_create(&threads[core], NULL, run, (void *)(intptr_t)core) != 0) {
      fprintf(stderr, "litmus: thread %d can't be started\n", core);
      return 4;
    }
  for (int core = 0; core < CORES; core++) pthread_join(threads[core], NULL);
  for (long round = 0; round < rounds; round++) {
    for (int i = 0; i < READS; i++) printf("%llu ", (unsigned long long)reads[i * rounds + round]);
    for (int i = 0; i < FINALS; i++) printf("%llu ", (unsigned long long)load(&cells[round * ADDRESSES + final[i]]));
    putchar('\n');
  }
  return fflush(stdout) == 0 ? 0 : 4;
}
