// What puts threads in order in C++ alone: the guard of a static variable, and the standard library's names of calls of POSIX.
#include <condition_variable>
#include <mutex>
#include <shared_mutex>
#include <thread>
#include "orders.h"

static std::mutex mutex;
static std::shared_mutex shared;
static std::once_flag flag;
static std::condition_variable changed;
static bool is_ready;

static int given() { return give(), 1; }
static int made_once() { static int it = given(); return it; }

static void beside(void (*giver)(), void (*taker)()) {
    std::thread thread(giver);
    taker();
    thread.join();
}
static void guards() {
    beside([] { made_once(); tell(); }, [] { wait(); made_once(); take(); });
}
static void mutexes() {
    beside([] { { std::lock_guard in(mutex); give(); } tell(); }, [] { wait(); std::lock_guard in(mutex); take(); });
}
static void shared_mutexes() {
    beside([] { { std::unique_lock in(shared); give(); } tell(); }, [] { wait(); std::shared_lock in(shared); take(); });
}
static void once_flags() {
    beside([] { std::call_once(flag, give); tell(); }, [] { wait(); std::call_once(flag, give); take(); });
}
static void conditions() {
    beside([] { wait(); std::lock_guard in(mutex); give(); is_ready = true; changed.notify_one(); },
           [] { std::unique_lock in(mutex); tell(); changed.wait(in, [] { return is_ready; }); take(); });
}
static void joined() {
    std::thread(give).join();
    take();
}

int main(int words, char **word) {
    static const kind kinds[] = {{"guards", guards}, {"mutexes", mutexes}, {"shared_mutexes", shared_mutexes}, {"once_flags", once_flags},
                                 {"conditions", conditions}, {"joined", joined}};
    return run(words, word, kinds, sizeof kinds / sizeof *kinds);
}
