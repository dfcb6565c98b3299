/* write_runs OUT: writes the logs of two cores to OUT.0 and OUT.1, and what they did without times to OUT.trace.
 *
 * Core 0 stores 7 and loads what core 1 swapped in; core 1 swaps 9 for the 7. */
#include <stdlib.h>

#include "tardis_write.h"

static FILE *made(const char *out, const char *end) {
    char name[4096];
    snprintf(name, sizeof name, "%s.%s", out, end);
    FILE *file = fopen(name, "w");
    if (file == NULL) {
        fprintf(stderr, "write_runs: %s can't be written\n", name);
        exit(4);
    }
    return file;
}

static void put(FILE *file, bool whole) {
    if (fclose(file) != 0 || !whole) exit(4);
}

int main(int argc, char **argv) {
    if (argc != 2) return 3;
    const TardisOperation core_0[] = {
        {.kind = TARDIS_LOAD, .addr = 100, .value = 0, .ts = 1, .source_core = TARDIS_INITIAL},
        {.kind = TARDIS_STORE, .addr = 100, .value = 7, .ts = 2},
        {.kind = TARDIS_LOAD, .addr = 100, .value = 9, .ts = 4, .source_core = 1, .source_index = 0},
    };
    const TardisOperation core_1[] = {
        {.kind = TARDIS_SWAP, .addr = 100, .read = 7, .value = 9, .ts = 3, .source_core = 0, .source_index = 1},
    };
    FILE *file = made(argv[1], "0");
    put(file, tardis_write_log(file, 0, 2, core_0, 3));
    file = made(argv[1], "1");
    put(file, tardis_write_log(file, 1, 2, core_1, 1));

    const TardisAccess accesses[] = {
        {.kind = TARDIS_LOAD, .addr = 100, .value = 0},
        {.kind = TARDIS_STORE, .addr = 100, .value = 7},
        {.kind = TARDIS_LOAD, .addr = 100, .value = 9},
        {.kind = TARDIS_SWAP, .addr = 100, .read = 7, .value = 9},
    };
    const size_t ends[] = {3, 4};
    const uint64_t ended[] = {1, 2, 4, 3};
    file = made(argv[1], "trace");
    put(file, tardis_write_trace(file, accesses, ends, 2, ended));
    file = made(argv[1], "untimed");
    put(file, tardis_write_trace(file, accesses, ends, 2, NULL));
    return 0;
}
