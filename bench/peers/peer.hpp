// What the C++ peers have in common: the cells of the comparison, over a map that says how it puts, removes, gets, scans
// and copies. btree.rs, SkipList.java and `snap_bench cell` run the same cells on the same keys.
#pragma once
#include <atomic>
#include <chrono>
#include <cstdint>
#include <cstdio>
#include <cstdlib>
#include <cstring>
#include <ctime>
#include <functional>
#include <string>
#include <thread>
#include <unistd.h>
#include <vector>

namespace peer {

using Clock = std::chrono::steady_clock;

// Ends the cell with no figure: the driver says so and goes on.
[[noreturn]] inline void fail(const char* why) {
    std::fprintf(stderr, "%s\n", why);
    std::exit(1);
}

// A bijection of 64 bits: different numbers have different keys, in an order as if by lot.
inline std::uint64_t spread(std::uint64_t number) {
    number = (number ^ (number >> 30)) * 0xbf58476d1ce4e5b9u;
    number = (number ^ (number >> 27)) * 0x94d049bb133111ebu;
    return number ^ (number >> 31);
}

// The numbers of one thread in one phase: the same for each map.
class Draws {
    std::uint64_t state;

public:
    Draws(std::uint64_t phase, std::uint64_t thread) : state(spread(phase * 64 + thread + 1)) {}

    std::uint64_t next() {
        state += 0x9e3779b97f4a7c15u;
        return spread(state);
    }
};

// The upper half of a number as a key below a bound, and the lower half as a share of a bound.
inline std::uint64_t key_of(std::uint64_t number, std::uint64_t keys) { return ((number >> 32) * keys) >> 32; }
inline std::uint64_t share_of(std::uint64_t number, std::uint64_t whole) { return ((number & 0xffffffffu) * whole) >> 32; }

inline std::uint64_t processor_nanos() {
    timespec time;
    clock_gettime(CLOCK_PROCESS_CPUTIME_ID, &time);
    return static_cast<std::uint64_t>(time.tv_sec) * 1000000000u + static_cast<std::uint64_t>(time.tv_nsec);
}

inline std::uint64_t resident_bytes() {
    unsigned long whole = 0, resident = 0;
    std::FILE* file = std::fopen("/proc/self/statm", "r");
    if (!file || std::fscanf(file, "%lu %lu", &whole, &resident) != 2) fail("no /proc/self/statm");
    std::fclose(file);
    return resident * static_cast<std::uint64_t>(sysconf(_SC_PAGESIZE));
}

// The time from its making on, by the wall and of all threads together.
class Watch {
    Clock::time_point wall = Clock::now();
    std::uint64_t processor = processor_nanos();

public:
    void tell(const std::string& name, const std::string& cell, std::uint64_t calls) const {
        const auto taken = std::chrono::duration_cast<std::chrono::nanoseconds>(Clock::now() - wall).count();
        std::printf("%s %s %llu %lld %llu\n", name.c_str(), cell.c_str(), static_cast<unsigned long long>(calls),
                    static_cast<long long>(taken), static_cast<unsigned long long>(processor_nanos() - processor));
    }
};

struct Mix {
    std::uint64_t gets, keys, threads, millis, most;
};

struct Tally {
    std::uint64_t calls = 0, found = 0, fresh = 0, taken = 0;

    void add(const Tally& other) {
        calls += other.calls;
        found += other.found;
        fresh += other.fresh;
        taken += other.taken;
    }
};

// How many calls stand between two looks at the clock.
constexpr std::uint64_t BATCH = 64;

template <class Map> void one_call(Map& map, const Mix& mix, std::uint64_t number, Tally& tally) {
    const std::uint64_t key = key_of(number, mix.keys);
    const std::uint64_t share = share_of(number, 200);
    if (share < 2 * mix.gets) tally.found += map.get(key);
    else if (share % 2 == 0) tally.fresh += map.put(key, number >> 1);
    else if constexpr (Map::removes) tally.taken += map.remove(key);
}

// What one thread does: calls until the time is over, or so many.
template <class Map> Tally work(Map& map, const Mix& mix, std::uint64_t phase, std::uint64_t thread, Clock::time_point end) {
    typename Map::Attached attached;
    Draws draws(phase, thread);
    Tally tally;
    while (tally.calls < mix.most && Clock::now() < end) {
        for (std::uint64_t turn = 0; turn < BATCH; turn++) one_call(map, mix, draws.next(), tally);
        tally.calls += BATCH;
    }
    return tally;
}

template <class Map> Tally all_work(Map& map, const Mix& mix, std::uint64_t phase) {
    const auto end = Clock::now() + std::chrono::milliseconds(mix.millis);
    std::vector<Tally> tallies(mix.threads);
    std::vector<std::thread> threads;
    for (std::uint64_t thread = 0; thread < mix.threads; thread++)
        threads.emplace_back([&, thread] { tallies[thread] = work(map, mix, phase, thread, end); });
    for (auto& thread : threads) thread.join();
    Tally sum;
    for (const auto& tally : tallies) sum.add(tally);
    return sum;
}

// `mix GETS KEYS THREADS WARM MILLIS MOST`: so many gets in a hundred calls, the rest puts and removals in equal parts, on
// keys as if by lot, half of which are there at first; so many milliseconds, or so many calls a thread.
template <class Map> void mix(const std::vector<std::uint64_t>& n, const std::string& cell) {
    const Mix asked{n[0], n[1], n[2], n[4], n[5]};
    if (!Map::removes && asked.gets < 100) fail("no removals beside other calls");
    Map map;
    Draws draws(0, 0);
    std::uint64_t pairs = 0;
    while (pairs < asked.keys / 2) pairs += map.put(key_of(draws.next(), asked.keys), 0);
    const Tally warm = all_work(map, Mix{asked.gets, asked.keys, asked.threads, n[3], asked.most}, 1);
    const Watch watch;
    const Tally tally = all_work(map, asked, 2);
    watch.tell(Map::name, cell, tally.calls);
    std::uint64_t left = 0;
    for (std::uint64_t key = 0; key < asked.keys; key++) left += map.get(key);
    if (left != pairs + warm.fresh + tally.fresh - warm.taken - tally.taken) fail("keys are lost");
}

// `rising KEYS`: puts of keys in rising order by one thread.
template <class Map> void rising(const std::vector<std::uint64_t>& n, const std::string& cell) {
    Map map;
    const Watch watch;
    for (std::uint64_t key = 0; key < n[0]; key++) map.put(key, key);
    watch.tell(Map::name, cell, n[0]);
}

template <class Map> void fill(Map& map, std::uint64_t pairs) {
    for (std::uint64_t number = 0; number < pairs; number++) map.put(spread(number), number);
}

// `scan PAIRS WRITERS MILLIS`: all pairs in order, again and again, while others put at keys that are there.
template <class Map> void scan(const std::vector<std::uint64_t>& n, const std::string& cell) {
    if constexpr (Map::scans) {
        Map map;
        fill(map, n[0]);
        std::atomic<bool> ended{false};
        std::vector<std::uint64_t> written(n[1]);
        std::vector<std::thread> threads;
        const Watch watch;
        const auto end = Clock::now() + std::chrono::milliseconds(n[2]);
        for (std::uint64_t thread = 0; thread < n[1]; thread++)
            threads.emplace_back([&, thread] {
                typename Map::Attached attached;
                Draws draws(1, thread);
                std::uint64_t count = 0;
                while (!ended.load(std::memory_order_relaxed)) {
                    map.put(spread(key_of(draws.next(), n[0])), count);
                    count++;
                }
                written[thread] = count;
            });
        std::uint64_t pairs = 0;
        do {
            const std::uint64_t seen = map.scan();
            if (seen != n[0]) fail("a scan lacks pairs");
            pairs += seen;
        } while (Clock::now() < end);
        watch.tell(Map::name, cell, pairs);
        ended.store(true);
        std::uint64_t writes = 0;
        for (std::uint64_t thread = 0; thread < n[1]; thread++) {
            threads[thread].join();
            writes += written[thread];
        }
        watch.tell(Map::name, "beside-" + cell, writes);
    } else fail("no scan beside other calls");
}

// `copy PAIRS MILLIS`: copies that are made and given up one after another.
template <class Map> void copy(const std::vector<std::uint64_t>& n, const std::string& cell) {
    if constexpr (Map::scans) {
        Map map;
        fill(map, n[0]);
        const auto end = Clock::now() + std::chrono::milliseconds(n[1]);
        std::uint64_t copies = 0;
        const Watch watch;
        do {
            if (map.copied() != n[0]) fail("a copy lacks pairs");
            copies++;
        } while (Clock::now() < end);
        watch.tell(Map::name, cell, copies);
    } else fail("no copy beside other calls");
}

// `memory PAIRS`: how much larger the process is with the map, in bytes.
template <class Map> void memory(const std::vector<std::uint64_t>& n, const std::string& cell) {
    const std::uint64_t before = resident_bytes();
    Map map;
    fill(map, n[0]);
    std::printf("%s %s %llu %llu 0\n", Map::name, cell.c_str(), static_cast<unsigned long long>(n[0]),
                static_cast<unsigned long long>(resident_bytes() - before));
}

// One cell, as its words say. It prints `NAME CELL CALLS NANOSECONDS PROCESSOR-NANOSECONDS`.
template <class Map> int run(int count, char** words) {
    if (count < 2) fail("which cell?");
    const std::string kind = words[1];
    std::string cell = kind;
    std::vector<std::uint64_t> numbers;
    for (int place = 2; place < count; place++) {
        numbers.push_back(std::strtoull(words[place], nullptr, 10));
        cell = cell + "/" + words[place];
    }
    const std::size_t given = numbers.size();
    typename Map::Attached attached;
    if (kind == "mix" && given == 6) mix<Map>(numbers, cell);
    else if (kind == "rising" && given == 1) rising<Map>(numbers, cell);
    else if (kind == "scan" && given == 3) scan<Map>(numbers, cell);
    else if (kind == "copy" && given == 2) copy<Map>(numbers, cell);
    else if (kind == "memory" && given == 1) memory<Map>(numbers, cell);
    else fail("which cell?");
    return 0;
}

} // namespace peer
