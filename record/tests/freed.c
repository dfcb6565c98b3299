// Memory that was freed isn't given out again. Else the C library would clear a word there, unseen, which the program had stored 1 in.
// Without: recorder/process.c: if (!file_name[0]) __libc_free(p); => __libc_free(p);
#include <stdatomic.h>
#include <stdlib.h>

int main(void) {
    for (int i = 0; i < 2; i++) {
        atomic_long *words = malloc(4 * sizeof *words);
        atomic_load(&words[1]);
        atomic_store(&words[1], 1);
        free(words);
    }
}
