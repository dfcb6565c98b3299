// A simulator that tells each operation as it performs it, and judges what it has so far. The growing is not proved.
#include <cstdio>
#include <vector>

#include "tardis.h"

class Run {
    std::vector<std::vector<TardisOperation>> cores;

public:
    explicit Run(size_t count) : cores(count) {}

    void perform(size_t core, TardisOperation operation) { cores[core].push_back(operation); }

    int check(TardisVerdict &told) const {
        std::vector<TardisOperation> all;
        std::vector<size_t> ends;
        all.reserve(1); // data() of an empty vector may be null
        for (const auto &core : cores) {
            all.insert(all.end(), core.begin(), core.end());
            ends.push_back(all.size());
        }
        return tardis_check_operations(all.data(), all.size(), ends.data(), ends.size(), &told);
    }
};

static TardisOperation store(uint64_t addr, uint64_t value, uint64_t ts) {
    return {value, 0, ts, 0, 0, addr, TARDIS_STORE, TARDIS_INITIAL};
}

static TardisOperation load(uint64_t addr, uint64_t value, uint64_t ts, uint8_t core, uint32_t index) {
    return {value, 0, ts, 0, index, addr, TARDIS_LOAD, core};
}

static void tell(const Run &run) {
    TardisVerdict v{};
    int status = run.check(v);
    std::printf("status %d: count %llu, operation %llu.%llu, rule %u, number %u\n", status, (unsigned long long)v.count,
                (unsigned long long)v.core, (unsigned long long)v.index, v.rule, v.number);
}

int main() {
    Run run(2);
    tell(run);
    run.perform(0, store(100, 7, 1));
    run.perform(1, store(200, 9, 3));
    tell(run);
    run.perform(1, load(100, 7, 4, 0, 0));
    run.perform(0, load(200, 9, 5, 1, 0));
    tell(run);
    run.perform(1, load(200, 8, 6, 1, 0)); // but it stored 9
    tell(run);
    run.perform(0, {8, 0, 7, 0, 0, 100, 3, 0}); // of no kind
    tell(run);
    Run far(1);
    far.perform(0, store(65536 + 100, 7, 1)); // past the last address
    tell(far);
}
