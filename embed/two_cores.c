/* Writes the logs of two cores into one buffer, and has them judged. Then searches an order of operations without times. */
#include <stdio.h>
#include <string.h>

#include "tardis.h"

static const char *RULES[] = {"", "CORE-ORDER", "PROGRAM", "SOURCE", "VALUE"};

static void judge(const char *core0, const char *core1) {
    char text[512];
    size_t ends[2];
    TardisVerdict v;
    ends[0] = strlen(core0);
    ends[1] = ends[0] + strlen(core1);
    memcpy(text, core0, ends[0]);
    memcpy(text + ends[0], core1, ends[1] - ends[0]);
    switch (tardis_check((const uint8_t *)text, ends[1], ends, 2, &v)) {
    case TARDIS_YES:
        printf("yes: %llu operations\n", (unsigned long long)v.count);
        break;
    case TARDIS_NO:
        printf("no: %llu.%llu %s\n", (unsigned long long)v.core, (unsigned long long)v.index, RULES[v.rule]);
        break;
    case TARDIS_REFUSED:
        printf("refused: file %llu line %llu: %u\n", (unsigned long long)v.file, (unsigned long long)v.line, v.number);
        break;
    default:
        printf("refused: %u\n", v.number);
    }
}

int main(void) {
    const char *core0 = "tardis-log 1 core 0 of 2\nS 100 7 1 0\nL 200 9 5 0 1.0\nend 2\n";
    const char *early = "tardis-log 1 core 0 of 2\nS 100 7 1 0\nL 200 9 2 0 1.0\nend 2\n";
    const char *wrong = "tardis-log 1 core 0 of 2\nS 100 7 1 0\nL 200 9 5 0 1.0\nend 3\n";
    const char *core1 = "tardis-log 1 core 1 of 2\nS 200 9 3 0\nL 100 7 4 0 0.0\nend 2\n";
    judge(core0, core1);
    judge(early, core1);
    judge(wrong, core1);
    TardisVerdict v;
    size_t falls[2] = {5, 3};
    int status = tardis_check((const uint8_t *)core0, 5, falls, 2, &v);
    printf("ends that fall: status %d\n", status);
    status = tardis_check((const uint8_t *)core0, 5, falls, 0, &v);
    printf("bytes behind the last log: status %d\n", status);
    status = tardis_check((const uint8_t *)core0, 0, falls, 0, &v);
    printf("no log: status %d number %u\n", status, v.number);
    const TardisAccess buffering[4] = {{.addr = 0, .value = 1, .kind = TARDIS_STORE}, {.addr = 1, .kind = TARDIS_LOAD},
                                       {.addr = 1, .value = 1, .kind = TARDIS_STORE}, {.addr = 0, .kind = TARDIS_LOAD}};
    const size_t halves[2] = {2, 4}, shorter[2] = {2, 3};
    uint8_t found[200];
    TardisFinding f;
    status = tardis_search_operations(buffering, 4, halves, 2, 1000, found, sizeof found, &f);
    printf("store buffering: status %d\n%.*s", status, (int)f.length, (const char *)found);
    status = tardis_search_operations(buffering, 4, halves, 2, 1000, found, 0, &f);
    printf("without a buffer: status %d, %d bytes of text\n", status, (int)f.length);
    status = tardis_search_operations(buffering, 3, shorter, 2, 1000, found, sizeof found, &f);
    printf("without the last load: status %d\n%.*s", status, (int)f.length, (const char *)found);
    return 0;
}
