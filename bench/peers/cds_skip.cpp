// libcds's skip list over hazard pointers. Its iterators are for debugging, so it has no scans and no copies here. Values of
// keys that are there are exchanged in place.
#include "peer.hpp"
#include <cds/init.h>
#include <cds/gc/hp.h>
#include <cds/container/skip_list_map_hp.h>

// A number that is exchanged in place. The list copies it while it makes a node, before another thread can see it.
struct Value {
    std::atomic<std::uint64_t> number;
    Value(std::uint64_t value = 0) : number(value) {}
    Value(const Value& other) : number(other.number.load(std::memory_order_relaxed)) {}
};

class Skip {
    using Less = std::less<std::uint64_t>;
    using Traits = cds::container::skip_list::make_traits<cds::opt::less<Less>>::type;
    using Map = cds::container::SkipListMap<cds::gc::HP, std::uint64_t, Value, Traits>;
    Map map;

public:
    static constexpr std::size_t guards = Map::c_nHazardPtrCount;
    static constexpr const char* name = "cds-skip";
    static constexpr bool removes = true, scans = false;
    struct Attached {
        Attached() { cds::threading::Manager::attachThread(); }
        ~Attached() { cds::threading::Manager::detachThread(); }
    };

    bool put(std::uint64_t key, std::uint64_t value) {
        return map.update(key, [value](bool, auto& pair) { pair.second.number.store(value); }).second;
    }

    bool remove(std::uint64_t key) { return map.erase(key); }

    bool get(std::uint64_t key) {
        bool good = false;
        map.find(key, [&good](auto& pair) { good = pair.second.number.load() != UINT64_MAX; });
        return good;
    }
};

int main(int count, char** words) {
    cds::Initialize();
    int status;
    {
        cds::gc::HP pointers(Skip::guards);
        status = peer::run<Skip>(count, words);
    }
    cds::Terminate();
    return status;
}
