// Ends in the way that its first word says, or does what can't be recorded.
#include <dlfcn.h>
#include <pthread.h>
#include <semaphore.h>
#include <signal.h>
#include <stdatomic.h>
#include <stdio.h>
#include <stdlib.h>
#include <string.h>
#include <sys/wait.h>
#include <unistd.h>

static atomic_int x;
static sem_t go;

static void *count(void *argument) {
    for (;;) atomic_fetch_add(&x, 1);
    return argument;
}
static void *wait_for_all(void *argument) {
    sem_wait(&go);
    return argument;
}

// Makes so many threads that run at the same time.
static void make_threads(int n) {
    pthread_t threads[128];
    sem_init(&go, 0, 0);
    for (int i = 0; i < n; i++) pthread_create(&threads[i], NULL, wait_for_all, NULL);
    for (int i = 0; i < n; i++) sem_post(&go);
    for (int i = 0; i < n; i++) pthread_join(threads[i], NULL);
}

int main(int words, char **word) {
    const char *how = words > 1 ? word[1] : "";
    pthread_t thread;
    int number = words > 2 ? atoi(word[2]) : 0;
    atomic_store(&x, 1);
    if (!strcmp(how, "signal")) raise(number);
    if (!strcmp(how, "threads")) make_threads(number);
    if (!strcmp(how, "one_by_one")) for (int i = 0; i < number; i++) make_threads(1);
    if (!strcmp(how, "operations")) for (int i = 0; i < number; i++) atomic_store(&x, i);
    if (!strcmp(how, "_exit") || !strcmp(how, "endless")) {
        pthread_create(&thread, NULL, count, NULL);
        while (atomic_load(&x) < 1000) {}
        if (how[0] == '_') _exit(7); else exit(7);
    }
    if (!strcmp(how, "fork")) {
        if (!fork()) { atomic_store(&x, 2); _exit(0); }
        wait(NULL);
    }
    if (!strcmp(how, "exec")) execl("/bin/true", "true", NULL);
    if (!strcmp(how, "execv")) execv("/bin/true", (char *[]){"true", NULL});
    if (!strcmp(how, "dlopen")) dlopen("libm.so.6", RTLD_NOW);
    return atomic_load(&x) < 0;
}
