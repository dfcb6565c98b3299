// A signal's handler comes into the middle of an operation: the compare-and-swap has found another word, and can't put it into `found`, whose page may
// not be written. The handler stores 2. Which of the two was first isn't known to the recorder, so the word is left out. Else the load of 1, which is
// noted last, would stand behind the store of 2.
// Without: recorder/notes.c: if (c->busy) return leave_out(c, at, size), NULL; => (void)at, (void)size;
#include <signal.h>
#include <stdatomic.h>
#include <stddef.h>
#include <sys/mman.h>

static atomic_int x;
static int *found;

static void handler(int number) {
    (void)number;
    mprotect(found, 4096, PROT_READ | PROT_WRITE);
    atomic_store(&x, 2);
}

int main(void) {
    found = mmap(NULL, 4096, PROT_READ, MAP_PRIVATE | MAP_ANONYMOUS, -1, 0);
    signal(SIGSEGV, handler);
    atomic_store(&x, 1);
    __atomic_compare_exchange_n((int *)&x, found, 3, 0, __ATOMIC_SEQ_CST, __ATOMIC_SEQ_CST);
}
