/* Each request for memory refused in turn: the answer is 10 OutOfMemory or the right one, and no memory is lost. To be linked
 * with -Wl,--wrap=malloc,--wrap=realloc,--wrap=free. Ends with 1 where another answer came. */
#include <stdio.h>
#include <stdlib.h>
#include <string.h>

#include "tardis.h"

static long left = -1, held = 0;
void *__real_malloc(size_t n);
void *__real_realloc(void *p, size_t n);
void __real_free(void *p);
static int refused(void) { return left >= 0 && left-- == 0; }
void *__wrap_malloc(size_t n) { if (refused()) return NULL; void *p = __real_malloc(n); held += p != NULL; return p; }
void *__wrap_realloc(void *p, size_t n) { return refused() ? NULL : __real_realloc(p, n); }
void __wrap_free(void *p) { held -= p != NULL; __real_free(p); }

int main(void) {
    const char *text = "tardis-log 1 core 0 of 2\nS 100 7 1 0\nL 200 9 5 0 1.0\nend 2\ntardis-log 1 core 1 of 2\nS 200 9 3 0\nL 100 7 4 0 0.0\nend 2\n";
    size_t text_ends[2] = {strlen(text) / 2, strlen(text)}, ends[2] = {2, 4};
    TardisOperation ops[4] = {{.kind = 1, .addr = 100, .value = 7, .ts = 1},
                              {.kind = 0, .addr = 200, .value = 9, .ts = 5, .source_core = 1},
                              {.kind = 1, .addr = 200, .value = 9, .ts = 3},
                              {.kind = 0, .addr = 100, .value = 7, .ts = 4, .source_core = 0}};
    TardisAccess accesses[4] = {{.kind = 1, .addr = 0, .value = 1}, {.kind = 0, .addr = 1},
                                {.kind = 1, .addr = 1, .value = 1}, {.kind = 0, .addr = 0}};
    const char *names[4] = {"text", "operations", "search that finds no order", "search that finds one"};
    int wrong = 0;
    for (int which = 0; which < 4; which++) {
        int none = 0, right = 0, other = 0;
        for (long n = 0; n < 400; n++) {
            TardisVerdict v = {0};
            TardisFinding f = {0};
            uint8_t found[200] = {0};
            long before = held;
            int status, number, count;
            accesses[3].value = which == 3;
            left = n;
            if (which < 2) {
                status = which ? tardis_check_operations(ops, 4, ends, 2, &v)
                               : tardis_check((const uint8_t *)text, text_ends[1], text_ends, 2, &v);
                number = v.number, count = v.count == 4;
            } else {
                status = tardis_search_operations(accesses, 4, ends, 2, 1000, found, sizeof found, &f);
                number = f.number, count = f.length && found[f.length - 1] == '\n' && !found[f.length];
            }
            left = -1;
            if (held != before) other++;
            else if (status == TARDIS_NO_ANSWER && number == 10 && !found[0]) none++;
            else if (status == (which == 2 ? TARDIS_NO : TARDIS_YES) && count) right++;
            else other++;
        }
        wrong += other + (none == 0) + (right == 0);
        printf("%s: %d refused, %d right, %d other\n", names[which], none, right, other);
    }
    return wrong != 0;
}
