// std::map under a std::shared_mutex: readers share the lock.
#include "peer.hpp"
#include <map>
#include <mutex>
#include <shared_mutex>

class Locked {
    std::map<std::uint64_t, std::uint64_t> map;
    std::shared_mutex lock;

public:
    static constexpr const char* name = "std::map";
    static constexpr bool removes = true, scans = true;
    struct Attached {
        Attached() {}
    };

    bool put(std::uint64_t key, std::uint64_t value) {
        std::unique_lock held(lock);
        auto [place, fresh] = map.try_emplace(key, value);
        if (!fresh) place->second = value;
        return fresh;
    }

    bool remove(std::uint64_t key) {
        std::unique_lock held(lock);
        return map.erase(key) > 0;
    }

    bool get(std::uint64_t key) {
        std::shared_lock held(lock);
        const auto place = map.find(key);
        return place != map.end() && place->second != UINT64_MAX;
    }

    std::uint64_t scan() {
        std::shared_lock held(lock);
        std::uint64_t pairs = 0;
        for (const auto& pair : map) pairs += pair.second != UINT64_MAX;
        return pairs;
    }

    std::uint64_t copied() {
        std::shared_lock held(lock);
        const auto copy = map;
        held.unlock();
        return copy.size();
    }
};

int main(int count, char** words) { return peer::run<Locked>(count, words); }
