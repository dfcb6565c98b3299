// How a recording begins and ends, and what a process does besides.
#include "recorder.h"
#include <dlfcn.h>
#include <link.h>
#include <linux/membarrier.h>
#include <malloc.h>
#include <signal.h>
#include <stdio.h>
#include <stdlib.h>
#include <string.h>
#include <sys/syscall.h>
#include <unistd.h>

char file_name[4096];
static pid_t process;
static volatile int forked;
static u64 libraries;

static int count_libraries(struct dl_phdr_info *info, size_t size, void *count) { (void)size; *(u64 *)count = info->dlpi_adds; return 1; }

// Sound: whoever is in an operation ends it first; of one that doesn't end, as where a signal came into it, nothing is told at its word.
static void await(core *c) {
    for (int i = 0; c != self && c->busy && i < 1000; i++) usleep(1000);
    if (!c->busy) {
        settle(c);
        return;
    }
    leave_out(c, c->busy >> 6, c->busy >> 1 & 31);
    for (u64 word = c->next.at / 8; word <= (c->next.at + c->next.size - 1) / 8 && c->next.size; word++)
        if (is_recorded(word)) leave_out(c, word * 8, 8);
}

static void tell_rest(const char *how) {
    u64 now = 0;
    dl_iterate_phdr(count_libraries, &now);
    if (how) dprintf(2, "record: %s: the trace ends there\n", how);
    if (trouble) dprintf(2, "record: stopped before the end of the program, in all threads at one point: %s\n", trouble);
    if (forked) dprintf(2, "record: the program forked: what its children did isn't recorded\n");
    if (now > libraries) dprintf(2, "record: the program loaded libraries: what of them wasn't built for recording isn't recorded\n");
}

void finish(const char *how) {
    static volatile int once, done;
    static core *writer;
    if (!file_name[0] || getpid() != process) return;
    if (__atomic_exchange_n(&once, 1, __ATOMIC_SEQ_CST)) {
        while (!done && writer != self) usleep(1000);
        return;
    }
    writer = self;
    state = WRITING;
    // No thread has a fence before it looks at `state`: here each passes one.
    if (syscall(SYS_membarrier, MEMBARRIER_CMD_PRIVATE_EXPEDITED, 0, 0)) usleep(100000);
    u64 counts[CORES] = {0};
    int count = core_count < CORES ? core_count : CORES;
    for (int i = 0; i < count; i++)
        if (cores[i]) await(cores[i]), counts[i] = cores[i]->count;
    if (lost) dprintf(2, "record: no trace: %s\n", lost); else write_trace(count, counts);
    tell_rest(how);
    done = 1;
}

__attribute__((destructor)) static void at_exit(void) { finish(NULL); }
static void at_quick_exit_(void) { finish(NULL); }
void _exit(int status) { finish(NULL); for (;;) syscall(SYS_exit_group, status); }
void _Exit(int status) { _exit(status); }

#define EXEC "another program took the place of this one"
int execve(const char *file, char *const *words, char *const *env) { finish(EXEC); return REAL(execve)(file, words, env); }
int execv(const char *file, char *const *words) { finish(EXEC); return REAL(execv)(file, words); }
int execvp(const char *file, char *const *words) { finish(EXEC); return REAL(execvp)(file, words); }
int execvpe(const char *file, char *const *words, char *const *env) { finish(EXEC); return REAL(execvpe)(file, words, env); }

static void at_fatal_signal(int number) {
    signal(number, SIG_DFL);
    finish(strsignal(number));
    raise(number);
}

// Sound: a handler may come between the call that announces a plain access and the access. So that access is looked at only after the handler.
static struct sigaction asked[_NSIG];
static void on_signal(int number, siginfo_t *info, void *context) {
    core *c = self;
    announced next = {0};
    if (c) next = c->next, c->next.kind = 0;
    if (asked[number].sa_flags & SA_SIGINFO) asked[number].sa_sigaction(number, info, context); else asked[number].sa_handler(number);
    core *handler = begin(0, 0);
    if (handler) end(handler);
    if (c) c->next = next;
}
int sigaction(int number, const struct sigaction *want, struct sigaction *old) {
    struct sigaction was = {0}, put, earlier = number > 0 && number < _NSIG ? asked[number] : was;
    int is_handler = want && want->sa_handler != SIG_DFL && want->sa_handler != SIG_IGN && want->sa_handler != at_fatal_signal;
    if (is_handler && file_name[0]) {
        put = asked[number] = *want;
        put.sa_sigaction = on_signal, put.sa_flags |= SA_SIGINFO;
        want = &put;
    }
    int e = REAL(sigaction)(number, want, &was);
    if (was.sa_sigaction == on_signal) was = earlier;
    if (was.sa_handler == at_fatal_signal) was.sa_handler = SIG_DFL;
    if (!e && old) *old = was;
    return e;
}
__sighandler_t signal(int number, __sighandler_t handler) {
    struct sigaction put = {.sa_handler = handler, .sa_flags = SA_RESTART}, was;
    return sigaction(number, &put, &was) ? SIG_ERR : was.sa_handler;
}

// Sound: an address never means a second variable, since nothing is given back.
extern void __libc_free(void *);
void free(void *p) { if (!file_name[0]) __libc_free(p); }
void *realloc(void *p, size_t n) {
    size_t had = p ? malloc_usable_size(p) : 0;
    void *to = p && n <= had ? p : malloc(n);
    return to && p && to != p ? memcpy(to, p, had) : to;
}
int munmap(void *p, size_t n) { return file_name[0] ? 0 : (int)syscall(SYS_munmap, p, n); }
int dlclose(void *library) { return file_name[0] ? 0 : REAL(dlclose)(library); }

static void in_parent(void) { forked = 1; }
static void in_child(void) { state = STOPPED, file_name[0] = 0; }

void __tsan_init(void);
__attribute__((constructor)) void __tsan_init(void) {
    const char *name = getenv("RECORD"), *number = getenv("RECORD_MOST"), *all = getenv("RECORD_PLAIN");
    if (slots || !name || !*name || strlen(name) > sizeof file_name - 5) return;
    unsetenv("RECORD");     // what this program starts is no part of its trace
    if (!(slots = memory(SLOTS * sizeof(slot), 0))) { dprintf(2, "record: nothing is recorded: there was no memory\n"); return; }
    strcpy(file_name, name);
    process = getpid();
    if (number && atol(number) > 0 && (u64)atol(number) < most) most = atol(number);
    all_words = all && *all == '1';
    syscall(SYS_membarrier, MEMBARRIER_CMD_REGISTER_PRIVATE_EXPEDITED, 0, 0);
    dl_iterate_phdr(count_libraries, &libraries);
    prepare_threads();
    pthread_atfork(0, in_parent, in_child);
    at_quick_exit(at_quick_exit_);
    for (int i = 0, numbers[] = {SIGABRT, SIGSEGV, SIGBUS, SIGFPE, SIGILL, SIGINT, SIGTERM, SIGHUP, SIGQUIT}; i < 9; i++)
        if (signal(numbers[i], at_fatal_signal) == SIG_IGN) signal(numbers[i], SIG_IGN);
    state = RECORDING;
    self = new_core();
}
