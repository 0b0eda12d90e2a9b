// libcds's AVL tree after Bronson and others, over its buffered user-space RCU. It has no scans and no copies.
#include "peer.hpp"
#include <cds/init.h>
#include <cds/urcu/general_buffered.h>
#include <cds/container/bronson_avltree_map_rcu.h>

class Bronson {
    using Rcu = cds::urcu::gc<cds::urcu::general_buffered<>>;
    using Less = std::less<std::uint64_t>;
    using Traits = cds::container::bronson_avltree::make_traits<cds::opt::less<Less>>::type;
    cds::container::BronsonAVLTreeMap<Rcu, std::uint64_t, std::uint64_t, Traits> map;

public:
    static constexpr const char* name = "cds-avl";
    static constexpr bool removes = true, scans = false;
    struct Attached {
        Attached() { cds::threading::Manager::attachThread(); }
        ~Attached() { cds::threading::Manager::detachThread(); }
    };

    bool put(std::uint64_t key, std::uint64_t value) {
        return map.update(key, [value](bool, std::uint64_t const&, std::uint64_t& place) { place = value; }).second;
    }

    bool remove(std::uint64_t key) { return map.erase(key); }

    bool get(std::uint64_t key) {
        bool good = false;
        map.find(key, [&good](std::uint64_t const&, std::uint64_t& value) { good = value != UINT64_MAX; });
        return good;
    }
};

int main(int count, char** words) {
    cds::Initialize();
    int status;
    {
        cds::urcu::gc<cds::urcu::general_buffered<>> rcu;
        status = peer::run<Bronson>(count, words);
    }
    cds::Terminate();
    return status;
}
