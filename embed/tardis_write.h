/* Writes logs and traces from arrays, in the formats of docs/FORMATS.md. C99; it needs the structs of tardis.h, and not the library.
 *
 * docs/LOGGING.md says what each field has. Nothing is looked at here: the commands refuse what isn't a log or a trace. Each function answers
 * whether the file took all that was written.
 */
#ifndef TARDIS_WRITE_H
#define TARDIS_WRITE_H

#include <inttypes.h>
#include <stdbool.h>
#include <stdio.h>

#include "tardis.h"

static inline bool tardis_write_ended(FILE *file) {
    return fflush(file) == 0 && ferror(file) == 0;
}

/* Writes the log of a core: a file of the set that `tardis check` reads, which has one for each of the cores, also for a core that did nothing.
 * The operations are those of this core, in program order. */
static inline bool tardis_write_log(FILE *file, size_t core, size_t cores, const TardisOperation *operations, size_t operations_len) {
    fprintf(file, "tardis-log 2 core %zu of %zu\n", core, cores);
    for (size_t i = 0; i < operations_len; i++) {
        const TardisOperation *it = &operations[i];
        fprintf(file, "%c %" PRIu64 " %" PRIu64 " %" PRIu64 " %" PRIu32, it->kind == TARDIS_LOAD ? 'L' : it->kind == TARDIS_STORE ? 'S' : 'X',
                it->addr, it->value, it->ts, it->rank);
        if (it->kind != TARDIS_STORE && it->source_core == TARDIS_INITIAL) fputs(" init", file);
        else if (it->kind != TARDIS_STORE) fprintf(file, " %u.%" PRIu32, it->source_core, it->source_index);
        if (it->kind == TARDIS_SWAP) fprintf(file, " %" PRIu64, it->read);
        fputc('\n', file);
    }
    fprintf(file, "end %zu\n", operations_len);
    return tardis_write_ended(file);
}

/* Writes a trace, for `tardis search`. As for tardis_search_operations, those of each core stand one behind another, in program order, and those of
 * core k end at ends[k]. `ended` says of each operation when it ended, by one clock for all cores; the search tries the order of these times first.
 * It may be a null pointer. */
static inline bool tardis_write_trace(FILE *file, const TardisAccess *operations, const size_t *ends, size_t ends_len, const uint64_t *ended) {
    for (size_t core = 0, i = 0; core < ends_len; core++) {
        for (; i < ends[core]; i++) {
            const TardisAccess *it = &operations[i];
            fprintf(file, "%zu: ", core);
            if (it->kind == TARDIS_SWAP) fprintf(file, "{ M[%" PRIu64 "] == %" PRIu64 "; ", it->addr, it->read);
            fprintf(file, "M[%" PRIu64 "] %s %" PRIu64, it->addr, it->kind == TARDIS_LOAD ? "==" : ":=", it->value);
            if (it->kind == TARDIS_SWAP) fputs(" }", file);
            if (ended != NULL) fprintf(file, " @ :%" PRIu64, ended[i]);
            fputc('\n', file);
        }
    }
    return tardis_write_ended(file);
}

#endif
