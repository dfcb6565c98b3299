// record/cc keeps GCC from writing a small memset out, which nobody would announce. Else the last load's 0 could only be the word before the store of 1.
// Without: cc: flags=(-g -fsanitize=thread -fno-builtin) => flags=(-g -fsanitize=thread)
#include <stdatomic.h>
#include <string.h>

static int x[8];

int main(void) {
    __atomic_store_n(&x[2], 1, __ATOMIC_RELEASE);
    memset(x, 0, sizeof x);
    return __atomic_load_n(&x[2], __ATOMIC_ACQUIRE);
}
