// A simulator of cores with caches on one bus, whose operations are judged while it runs.
//
//     caches COMMAND OPERATIONS [lost]
//
// COMMAND is what the operations are written to, as 'tardis replay --why /dev/stdin'. With `lost` one invalidation in a thousand never
// arrives, so that a core goes on reading a word that another core has overwritten. It ends with the status of COMMAND.
#include <cstdio>
#include <cstdlib>
#include <cstring>
#include <functional>
#include <queue>
#include <unordered_map>
#include <vector>

#include "tardis_replay.h"

enum class State { Invalid, Shared, Modified };

// A line of a cache: one word.
struct Line {
    State state = State::Invalid;
    uint64_t addr = 0;
    uint64_t word = 0;
};

// Numbers that look drawn, the same on every machine.
class Draws {
    uint64_t state = 88172645463325252;

public:
    uint64_t below(uint64_t bound) {
        state ^= state << 13;
        state ^= state >> 7;
        state ^= state << 17;
        return state % bound;
    }
};

// Cores with direct-mapped caches, and the bus between them and memory. What goes over the bus is done before anything else is.
class Machine {
    static constexpr size_t LINES = 16;

    std::vector<std::vector<Line>> caches;
    std::unordered_map<uint64_t, uint64_t> memory; // 0 where nothing was written back
    bool loses;
    uint64_t invalidations = 0;

    static size_t place(uint64_t addr) { return (addr >> 3) % LINES; }

    void write_back(const Line &line) {
        if (line.state == State::Modified) memory[line.addr] = line.word;
    }

    // The line of an address in a core's cache, where it is there.
    Line *find(size_t core, uint64_t addr) {
        Line &line = caches[core][place(addr)];
        return line.state != State::Invalid && line.addr == addr ? &line : nullptr;
    }

    bool is_lost() { return ++invalidations % 1000 == 0 && loses; }

    // Another core is to read: whoever has the word alone writes it back, and keeps a copy.
    void share(size_t core, uint64_t addr) {
        for (size_t other = 0; other < caches.size(); other++) {
            Line *line = other == core ? nullptr : find(other, addr);
            if (!line) continue;
            write_back(*line);
            line->state = State::Shared;
        }
    }

    // Another core is to write: no other keeps a copy.
    void invalidate(size_t core, uint64_t addr) {
        for (size_t other = 0; other < caches.size(); other++) {
            Line *line = other == core ? nullptr : find(other, addr);
            if (!line) continue;
            write_back(*line);
            line->state = is_lost() ? State::Shared : State::Invalid;
        }
    }

    // The line of an address, fetched where it isn't there.
    Line &fetched(size_t core, uint64_t addr) {
        Line &line = caches[core][place(addr)];
        if (find(core, addr)) return line;
        write_back(line);
        share(core, addr);
        line = {State::Shared, addr, memory[addr]};
        return line;
    }

public:
    Machine(size_t cores, bool loses) : caches(cores, std::vector<Line>(LINES)), loses(loses) {}

    bool has(size_t core, uint64_t addr) { return find(core, addr) != nullptr; }

    uint64_t load(size_t core, uint64_t addr) { return fetched(core, addr).word; }

    // Stores a word, and answers the one that was there.
    uint64_t swap(size_t core, uint64_t addr, uint64_t word) {
        Line &line = fetched(core, addr);
        if (line.state != State::Modified) invalidate(core, addr);
        uint64_t read = line.word;
        line = {State::Modified, addr, word};
        return read;
    }
};

// The next operation of a core, and when it takes effect.
struct Event {
    uint64_t time;
    size_t core;

    bool operator>(const Event &other) const { return time != other.time ? time > other.time : core > other.core; }
};

// Performs the next operation of a core, and tells it; false where nobody reads it.
static bool perform(Machine &machine, Draws &draws, FILE *run, size_t core, uint64_t addr, uint64_t word) {
    switch (draws.below(10)) {
    case 0: return tardis_replay_swap(run, core, addr, machine.swap(core, addr, word), word);
    case 1:
    case 2:
    case 3: machine.swap(core, addr, word); return tardis_replay_store(run, core, addr, word);
    default: return tardis_replay_load(run, core, addr, machine.load(core, addr));
    }
}

int main(int count, char **words) {
    constexpr size_t CORES = 4;
    if (count < 3) {
        std::fprintf(stderr, "caches COMMAND OPERATIONS [lost]\n");
        return 3;
    }
    FILE *run = tardis_replay_begin(words[1]);
    if (!run) return 4;
    Machine machine(CORES, count > 3 && std::strcmp(words[3], "lost") == 0);
    Draws draws;
    std::priority_queue<Event, std::vector<Event>, std::greater<Event>> events;
    for (size_t core = 0; core < CORES; core++) events.push({0, core});
    uint64_t operations = std::strtoull(words[2], nullptr, 10), done = 0;
    bool is_read = true;
    while (is_read && done < operations) {
        Event event = events.top();
        events.pop();
        uint64_t addr = 0xffff800000000000 + 8 * draws.below(40);
        uint64_t cost = machine.has(event.core, addr) ? 1 : 20;
        is_read = perform(machine, draws, run, event.core, addr, ++done);
        events.push({event.time + cost, event.core});
    }
    return tardis_replay_end(run);
}
