// How many entries maps have room for, and the bound on their number: it holds after each call, and changes while the map runs.
// Argument: by how much less to do.
#include "cefrodil_object_map.hpp"
#include "in_threads.hpp"
#include "must.h"
#include "tracked.hpp"
#include <cstdlib>
#include <map>

using cefrodil::Left;
using cefrodil::Status;
using Numbers = cefrodil::map<uint64_t, uint64_t>;
using Sessions = cefrodil::timed_map<uint64_t, uint64_t>;
using Objects = cefrodil::object_map<uint64_t, uint64_t>;

template <class Map> static void fill(Map &map, uint64_t first, uint64_t count) {
    for (uint64_t key = first; key < first + count; key++) {
        MUST(map.insert(key, uint64_t(key)).status == Status::ok);
    }
}

// A map has room for what was asked for, and for a tenth more at most.
template <class Map> static void sizes() {
    for (const cefrodil::MapOptions &options : {cefrodil::MapOptions{500}, {500, 1}, {500, 4}, {500, 16}, {10000}, {10000, 8}, {40000}}) {
        Map map;
        MUST(map.open(options) == Status::ok && map.capacity() >= options.entries && map.capacity() <= options.entries + options.entries / 10);
        fill(map, 0, options.entries);
        MUST(map.size() == options.entries && map.counts().evictions == 0);
        fill(map, options.entries, 4 * options.entries);
        MUST(map.size() >= options.entries && map.size() <= map.capacity() && map.counts().capacity == map.capacity());
    }
}

// What set_capacity says, and what stays.
template <class Map> static void changed(uint32_t shards) {
    Map map;
    MUST(map.set_capacity(1) == Status::closed && map.open({1000, shards}) == Status::ok);
    const uint64_t before = map.capacity();
    fill(map, 0, 1000);
    MUST(map.set_capacity(0) == Status::bad_capacity && map.set_capacity(10000) == Status::bad_capacity && map.capacity() == before && map.size() == 1000);
    MUST(map.set_capacity(400) == Status::ok && map.capacity() == 400 && map.size() == 400 && map.counts().evictions == 600);
    uint64_t there = 0;
    for (uint64_t key = 0; key < 1000; key++) {
        there += map.peek(key).value == key ? 1 : 0;
    }
    MUST(there == 400 && map.set_capacity(400) == Status::ok && map.counts().evictions == 600);
    // A new key takes the place of another one. A value that is there does not.
    for (uint64_t key = 2000; key < 3000; key++) {
        MUST(map.insert_or_assign(key, uint64_t(key)).evicted && map.size() == 400);
        const auto stored = map.insert_or_assign(key, uint64_t(key));
        MUST(stored.status == Status::ok && stored.renewed && !stored.evicted && map.size() == 400);
    }
    MUST(map.find_or_compute(3000, [] { return 1; }).computed && map.insert(3001, 1).evicted && map.size() == 400);
    MUST(map.set_capacity(before) == Status::ok && map.capacity() == before);
    const uint64_t evicted = map.counts().evictions;
    fill(map, 4000, 400);
    MUST(map.size() == 800 && map.counts().evictions == evicted);
    // A bound that nothing is above evicts nothing.
    MUST(map.set_capacity(900) == Status::ok && map.size() == 800 && map.counts().evictions == evicted);
    fill(map, 5000, 100);
    MUST(map.size() == 900 && map.counts().evictions == evicted && map.insert(6000, 1).evicted && map.size() == 900);
    // What was removed leaves room for a new key, and for no more than that.
    MUST(map.erase(6000) == Status::ok && !map.insert(6001, 1).evicted && map.insert(6002, 1).evicted && map.size() == 900);
}

// Down to one entry, and an update that inserts.
static void small() {
    Numbers numbers;
    MUST(numbers.open({100}) == Status::ok);
    fill(numbers, 0, 100);
    MUST(numbers.set_capacity(1) == Status::ok && numbers.size() == 1);
    const auto twice = [](uint64_t old) { return 2 * old; };
    MUST(numbers.update_or_insert(200, 5, twice).value == 5u && numbers.size() == 1 && numbers.clear() == Status::ok);
    MUST(numbers.insert(1, 1).status == Status::ok && !numbers.insert(1, 1).evicted && numbers.find(1) == 1u && numbers.size() == 1);
    MUST(std::string(cefrodil::text(Status::bad_capacity)) == "a capacity must be from 1 to the room that the map was opened with");
}

// Those that nobody asked for leave first.
static void used_keys_stay() {
    Numbers numbers;
    MUST(numbers.open({1000, 1}) == Status::ok);
    fill(numbers, 0, 1000);
    for (uint64_t key = 0; key < 100; key++) {
        MUST(numbers.find(key) == key);
    }
    MUST(numbers.set_capacity(300) == Status::ok && numbers.size() == 300);
    for (uint64_t key = 0; key < 100; key++) {
        MUST(numbers.find(key) == key);
    }
}

// A new key is there after its put, however few others its shard has, and however often those were used.
template <class Map> static void new_keys_come_in(const cefrodil::MapOptions &options, uint64_t most) {
    Map map;
    MUST(map.open(options) == Status::ok && map.set_capacity(most) == Status::ok);
    for (uint64_t key = 0; key < 1000; key++) {
        MUST(map.insert(key, uint64_t(key)).evicted == (key >= most) && map.peek(key).value == key && map.size() == std::min(key + 1, most));
        for (uint64_t other = key; other > 0 && key - other < 20; other--) {
            static_cast<void>(map.contains(other - 1));
        }
    }
}

// A number is its own hash. The index takes its shard from the mixed bits.
struct Plain {
    cefrodil::HashPair operator()(uint64_t key, const cefrodil::HashSecret &) const noexcept { return {key, key}; }
};
static uint64_t shard_of(uint64_t key) { return cefrodil::inside::mixed(key) >> cefrodil::inside::bits_before_shard & 3; }

template <class Map> static std::array<uint64_t, 4> in_shards(const Map &map, uint64_t end) {
    std::array<uint64_t, 4> numbers{};
    for (uint64_t key = 0; key < end; key++) {
        numbers[shard_of(key)] += map.peek(key).status == Status::ok ? 1 : 0;
    }
    return numbers;
}

// In a full map a key of the same shard leaves for a new one: at once when set_capacity has filled it, or a put.
template <class Map> static void its_own_shard_gives_way() {
    for (const uint64_t most : {100, 400, 1000}) {
        Map map;
        MUST(map.open({1000, 4}) == Status::ok);
        fill(map, 0, 400);
        MUST(map.set_capacity(most) == Status::ok);
        fill(map, 400, most > 400 ? most - 400 : 0);
        MUST(map.size() == most);
        for (uint64_t key = 1000; key < 1040; key++) {
            const auto before = in_shards(map, key);
            MUST(map.insert(key, uint64_t(key)).evicted && in_shards(map, key + 1) == before);
        }
    }
}

// The listener hears of each object that the bound makes leave, and may call the map.
static void listeners() {
    std::map<uint64_t, Left> left;
    Objects objects;
    Objects::Rules rules;
    rules.listener = [&](uint64_t key, uint64_t, Left why) {
        left[key] = why;
        MUST(!objects.contains(key));
    };
    MUST(objects.open({100}, rules) == Status::ok);
    fill(objects, 0, 100);
    MUST(objects.set_capacity(60) == Status::ok && left.size() == 40 && objects.size() == 60);
    fill(objects, 100, 10);
    MUST(left.size() == 50 && objects.size() == 60 && objects.free_unused() != 0 && objects.waiting() == 0);
    for (const auto &[key, why] : left) {
        MUST(why == Left::evicted && !objects.contains(key));
    }
}

// A bound on weights and one on the number hold both.
static void weights() {
    Objects objects;
    Objects::Rules rules;
    rules.weigher = [](uint64_t, uint64_t value) { return value; };
    rules.most_weight = 1000;
    MUST(objects.open({100, 4}, rules) == Status::ok && objects.set_capacity(50) == Status::ok);
    for (uint64_t n = 0; n < 5000; n++) {
        MUST(objects.insert_or_assign(n * 7 % 300, n % 41).status == Status::ok && objects.size() <= 50 && objects.weight() <= 1000);
    }
    MUST(objects.clear() == Status::ok && objects.weight() == 0 && objects.size() == 0);
    // What leaves for its weight leaves room for a new key.
    MUST(objects.set_capacity(4) == Status::ok);
    fill(objects, 0, 4);
    MUST(objects.insert_or_assign(3, 998).renewed && objects.size() < 4 && objects.weight() <= 1000);
    for (uint64_t size = objects.size(); size < 4; size++) {
        MUST(!objects.insert(10 + size, 0).evicted && objects.size() == size + 1);
    }
    MUST(objects.insert(20, 0).evicted && objects.size() == 4);
}

// Threads that put evict the same excess together, and not each all of it.
template <class Map> static void no_more_than_must() {
    Map map;
    MUST(map.open({10000, 64}) == Status::ok);
    fill(map, 0, 10000);
    for (const uint64_t most : {5000, 2000, 500}) {
        std::atomic<bool> is_over{false};
        in_threads(5, [&](uint64_t thread) {
            for (uint64_t n = 1; thread != 0 && !is_over; n++) {
                MUST(map.insert_or_assign((most * 100000 + n) * 5 + thread, uint64_t(n)).status == Status::ok);
            }
            MUST(thread != 0 || map.set_capacity(most) == Status::ok);
            is_over = is_over || thread == 0;
        });
        MUST(map.size() + 50 > most && map.size() < most + 50);
    }
}

// Threads put while another one changes the bound. Each may have put one key above it, and the next put makes it right.
template <class Map> static void threads(uint64_t puts) {
    Map map;
    MUST(map.open({1000, 4}) == Status::ok);
    in_threads(4, [&](uint64_t thread) {
        for (uint64_t n = 0; n < puts; n++) {
            MUST(map.insert_or_assign(n * 4 + thread, uint64_t(n)).status == Status::ok);
            if (thread == 0 && n % 64 == 0) {
                const Status status = map.set_capacity(100 + n % 512);
                MUST(status == Status::ok || status == Status::held);
            }
        }
    });
    MUST(map.set_capacity(200) == Status::ok && map.size() <= 200 && map.insert(UINT64_MAX, 1).status == Status::ok && map.size() <= 200);
}

// Entries of a list, and their number by the counts. All threads have ended.
template <class Map> static uint64_t listed(Map &map) {
    uint64_t there = 0;
    MUST(map.for_each([&](uint64_t, uint64_t) { there++; }) == Status::ok && there == map.size() && there == map.counts().entries);
    return there;
}

// In a full map each new key drives out another one, also if threads put them at once.
template <class Map> static void full(uint32_t thread_count, uint64_t puts) {
    Map map;
    MUST(map.open({1000}) == Status::ok && map.capacity() == 1100);
    in_threads(thread_count, [&](uint64_t thread) {
        for (uint64_t n = 0; n < puts; n++) {
            const uint64_t key = n * thread_count + thread;
            const auto stored = n % 2 == 0 ? map.insert(key, uint64_t(n)) : map.insert_or_assign(key, uint64_t(n));
            MUST(stored.status == Status::ok && !stored.renewed);
        }
    });
    const cefrodil::Counts counts = map.counts();
    MUST(listed(map) == 1100 && counts.evictions == puts * thread_count - 1100 && counts.evicted_by_capacity <= counts.evictions);
    MUST(map.insert(UINT64_MAX, 1).evicted && map.find_or_compute(UINT64_MAX - 1, [] { return 1; }).computed && listed(map) == 1100);
}

// The map has so many entries, and a new key drives out another one.
template <class Map> static void has_room_at(Map &map, uint64_t most) {
    MUST(map.size() == most && map.insert(most * 1000000, 1).evicted && map.size() == most && listed(map) == most);
}

// Each way out of the map makes room for one new key, and for no more.
template <class Map> static void left() {
    Map map;
    uint64_t next = 100000;
    MUST(map.open({1000, 8}) == Status::ok);
    fill(map, 0, 3000);
    const auto has_room = [&](uint64_t keys) {
        const uint64_t evictions = map.counts().evictions;
        for (; keys != 0; keys--) {
            MUST(!map.insert(next++, 1).evicted && map.counts().evictions == evictions);
        }
        MUST(map.insert(next++, 1).evicted && map.size() == 1100 && map.counts().evictions == evictions + 1);
    };
    has_room(0);
    MUST(map.erase(next - 1) == Status::ok && map.erase(next - 1) == Status::absent);
    has_room(1);
    MUST(map.extract(next - 1).value && map.extract(next - 2).value);
    has_room(2);
    const auto erased = map.erase_if([next](uint64_t key, uint64_t) { return key + 3 >= next; });
    MUST(erased.status == Status::ok && erased.count > 0);
    has_room(erased.count);
    MUST(map.clear() == Status::ok && map.size() == 0);
    has_room(1100);
    MUST(map.set_capacity(300) == Status::ok);
    has_room_at(map, 300);
    MUST(map.set_capacity(1000) == Status::ok);
    fill(map, 200000, 700);
    has_room_at(map, 1000);
}

// Of objects in a full map, the listener hears of each that leaves, and each is destroyed once.
static void objects_in_threads(uint64_t puts) {
    std::atomic<uint64_t> heard{0};
    {
        using Map = cefrodil::object_map<uint64_t, Tracked>;
        Map map;
        Map::Rules rules;
        rules.listener = [&](uint64_t, const Tracked &, Left) { heard++; };
        MUST(map.open({1000}, rules) == Status::ok);
        in_threads(8, [&](uint64_t thread) {
            for (uint64_t n = 0; n < puts; n++) {
                const uint64_t key = (n * 8 + thread) * 7 % 5000;
                if (n % 8 == 0) {
                    const Status status = map.erase(key);
                    MUST(status == Status::ok || status == Status::absent);
                } else {
                    const Status status = n % 8 == 1 ? map.insert(key, Tracked(key)).status : map.insert_or_assign(key, Tracked(key)).status;
                    MUST(status == Status::ok || (status == Status::present && n % 8 == 1));
                }
            }
        });
        for (uint64_t key = 10000; key < 12000; key++) {
            MUST(map.insert(key, Tracked(key)).status == Status::ok);
        }
        MUST(map.size() == 1100 && map.counts().evictions >= map.counts().evicted_by_capacity && heard >= map.counts().evictions);
        map.free_unused();
        MUST(living == 1100 && map.waiting() == 0);
    }
    MUST(living == 0);
}

// By default there is a shard for each 62 entries, 16 at most, and their number is a power of two. The room is theirs.
static void shards_by_default() {
    const uint32_t expected[][2] = {{1, 1}, {123, 1}, {124, 2}, {247, 2}, {248, 4}, {495, 4}, {496, 8}, {991, 8}, {992, 16}, {100000, 16}};
    for (const auto &[entries, shards] : expected) {
        Numbers numbers;
        cefrodil_shape shape{};
        MUST(numbers.open({entries}) == Status::ok && cefrodil_shape_for_items(entries, shards, &shape) == CEFRODIL_OK);
        const uint64_t room = uint64_t(shape.items) * shards;
        MUST(numbers.capacity() == std::min<uint64_t>(room, entries + entries / 10));
        MUST(numbers.set_capacity(room) == Status::ok && numbers.set_capacity(room + 1) == Status::bad_capacity);
    }
}

int main(int argc, char **argv) {
    const uint64_t less = argc > 1 ? std::strtoull(argv[1], nullptr, 10) : 1;
    shards_by_default();
    sizes<Numbers>();
    sizes<Objects>();
    for (const uint32_t shards : {0, 1, 4}) {
        changed<Numbers>(shards);
        changed<Sessions>(shards);
        changed<Objects>(shards);
    }
    small();
    used_keys_stay();
    for (const cefrodil::MapOptions &options : {cefrodil::MapOptions{100, 1}, {100, 16}}) {
        new_keys_come_in<Numbers>(options, 1);
        new_keys_come_in<Objects>(options, 3);
        new_keys_come_in<Objects>(options, 20);
    }
    its_own_shard_gives_way<cefrodil::map<uint64_t, uint64_t, Plain>>();
    its_own_shard_gives_way<cefrodil::object_map<uint64_t, uint64_t, Plain>>();
    listeners();
    weights();
    for (const uint32_t thread_count : {1, 8}) {
        full<Numbers>(thread_count, 1200 + 20000 / less);
        full<Objects>(thread_count, 1200 + 20000 / less);
    }
    left<Numbers>();
    left<Objects>();
    objects_in_threads(5000 / less);
    threads<Numbers>(20000 / less);
    threads<Objects>(20000 / less);
    no_more_than_must<Numbers>();
    no_more_than_must<Objects>();
    return outcome("bounds");
}
