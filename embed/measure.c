/* measure RUNS FILE..: reads the logs of the files, which have no swaps, has them judged so many times as text and as operations, and
 * tells the least nanoseconds of the processor a record of each. */
#include <stdio.h>
#include <stdlib.h>
#include <string.h>
#include <time.h>

#include "tardis.h"

static double now(void) {
    struct timespec t;
    clock_gettime(CLOCK_PROCESS_CPUTIME_ID, &t);
    return t.tv_sec * 1e9 + t.tv_nsec;
}

static TardisOperation operation(const char *line) {
    TardisOperation o = {.source_core = TARDIS_INITIAL};
    char kind, source[64] = "init";
    unsigned long addr, value, ts, rank, core, index;
    sscanf(line, "%c %lu %lu %lu %lu %63s", &kind, &addr, &value, &ts, &rank, source);
    if (sscanf(source, "%lu.%lu", &core, &index) == 2) o.source_core = core, o.source_index = index;
    o.kind = kind == 'L' ? TARDIS_LOAD : TARDIS_STORE;
    o.addr = addr, o.value = value, o.ts = ts, o.rank = rank;
    return o;
}

int main(int argc, char **argv) {
    int runs = atoi(argv[1]), files = argc - 2, statuses[2];
    size_t text_ends[64], ends[64], size = 0, count = 0, room = 1 << 16, slots = 1 << 16;
    char *text = malloc(room), line[128];
    TardisOperation *all = malloc(slots * sizeof *all);
    for (int k = 0; k < files; k++) {
        FILE *f = fopen(argv[2 + k], "r");
        if (!f) return 4;
        while (fgets(line, sizeof line, f)) {
            if (room - size < sizeof line) text = realloc(text, room *= 2);
            memcpy(text + size, line, strlen(line));
            size += strlen(line);
            if (line[0] != 'L' && line[0] != 'S') continue;
            if (count == slots) all = realloc(all, (slots *= 2) * sizeof *all);
            all[count++] = operation(line);
        }
        fclose(f);
        text_ends[k] = size, ends[k] = count;
    }
    for (int which = 0; which < 2; which++) {
        double best = 1e18;
        TardisVerdict v;
        for (int r = 0; r < runs; r++) {
            double from = now();
            statuses[which] = which ? tardis_check_operations(all, count, ends, files, &v)
                                    : tardis_check((const uint8_t *)text, size, text_ends, files, &v);
            double took = now() - from;
            if (took < best) best = took;
        }
        printf("%s: status %d, %.1f ns a record\n", which ? "operations" : "text", statuses[which], best / count);
    }
    return statuses[0] != statuses[1];
}
