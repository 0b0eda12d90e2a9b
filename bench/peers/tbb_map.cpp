// tbb::concurrent_map: a skip list whose puts, gets and scans may run side by side, and whose removals may not. Values of
// keys that are there are exchanged in place. A scan, and so a copy, may see some of the puts beside it and not others.
#include "peer.hpp"
#include <oneapi/tbb/concurrent_map.h>

class Skip {
    using Map = tbb::concurrent_map<std::uint64_t, std::atomic<std::uint64_t>>;
    Map map;

public:
    static constexpr const char* name = "tbb";
    static constexpr bool removes = false, scans = true;
    struct Attached {
        Attached() {}
    };

    bool put(std::uint64_t key, std::uint64_t value) {
        auto place = map.find(key);
        bool fresh = false;
        if (place == map.end()) std::tie(place, fresh) = map.emplace(key, value);
        if (!fresh) place->second.store(value);
        return fresh;
    }

    bool remove(std::uint64_t) { return false; }

    bool get(std::uint64_t key) {
        const auto place = map.find(key);
        return place != map.end() && place->second.load() != UINT64_MAX;
    }

    std::uint64_t scan() {
        std::uint64_t pairs = 0;
        for (const auto& pair : map) pairs += pair.second.load() != UINT64_MAX;
        return pairs;
    }

    std::uint64_t copied() {
        tbb::concurrent_map<std::uint64_t, std::uint64_t> copy;
        for (const auto& pair : map) copy.emplace(pair.first, pair.second.load());
        return copy.size();
    }
};

int main(int count, char** words) { return peer::run<Skip>(count, words); }
