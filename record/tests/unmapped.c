// Memory that was unmapped isn't mapped again. Else the second page would be at the place of the first, and its 0 come after the first one's 1.
// Without: recorder/process.c: int munmap(void *p, size_t n) { return file_name[0] ? 0 : => int munmap(void *p, size_t n) { return 0 ? 0 :
#include <stdatomic.h>
#include <stddef.h>
#include <sys/mman.h>

int main(void) {
    for (int i = 0; i < 2; i++) {
        atomic_int *word = mmap(NULL, 4096, PROT_READ | PROT_WRITE, MAP_PRIVATE | MAP_ANONYMOUS, -1, 0);
        atomic_load(word);
        atomic_store(word, 1);
        munmap(word, 4096);
    }
}
