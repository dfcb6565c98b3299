/* A run judged while it goes: each operation is written to `tardis replay`, through a pipe, when it takes effect.
 *
 * Memory begins with 0 in each word, and the lines of a core are its program order (docs/LOGGING.md, "One queue of events"). Any number of
 * operations, cores 0 to 63, addresses and words of 64 bits. POSIX; one thread writes at a time.
 */
#ifndef TARDIS_REPLAY_H
#define TARDIS_REPLAY_H

#include <inttypes.h>
#include <signal.h>
#include <stdbool.h>
#include <stdio.h>
#include <sys/wait.h>

/* Begins a run. The command is a line for the shell, as "tardis replay --why /dev/stdin": the verdict goes where its standard output goes.
 * From here on the process isn't ended by a write to a pipe that nobody reads. A null pointer: there was no pipe or no process. */
static inline FILE *tardis_replay_begin(const char *command) {
    FILE *run = popen(command, "w");
    signal(SIGPIPE, SIG_IGN);
    return run;
}

/* An operation, when it takes effect. False: the replay has ended before, as it does at the first load or swap that read another word than
 * the last store to its address. The file has a buffer, so this is seen some operations later; fflush(run) empties it. */
static inline bool tardis_replay_store(FILE *run, unsigned core, uint64_t addr, uint64_t word) {
    return fprintf(run, "%u: M[%" PRIu64 "] := %" PRIu64 "\n", core, addr, word) > 0;
}

static inline bool tardis_replay_load(FILE *run, unsigned core, uint64_t addr, uint64_t word) {
    return fprintf(run, "%u: M[%" PRIu64 "] == %" PRIu64 "\n", core, addr, word) > 0;
}

static inline bool tardis_replay_swap(FILE *run, unsigned core, uint64_t addr, uint64_t read, uint64_t stored) {
    return fprintf(run, "%u: { M[%" PRIu64 "] == %" PRIu64 "; M[%" PRIu64 "] := %" PRIu64 " }\n", core, addr, read, addr, stored) > 0;
}

/* Ends a run, and answers the exit status of the command: 0 yes, 1 no, else there is no verdict; -1 where it was killed. */
static inline int tardis_replay_end(FILE *run) {
    int status = pclose(run);
    return WIFEXITED(status) ? WEXITSTATUS(status) : -1;
}

#endif
