// What a call of a map of C++ costs, for valgrind's callgrind: values of 32 bytes in a map for 1,000 entries. Run it for a smaller and a larger number
// of calls, and divide what the second run has more.
//
// usage: costs KIND CALLS CACHE [full]     KIND: hit, miss, over (a put over a value) or new; CACHE: values or objects; full: the map is full
#include "cefrodil_object_map.hpp"
#include <cstdio>
#include <cstdlib>
#include <string>

using Value = std::array<uint64_t, 4>;
using Map = cefrodil::map<uint64_t, Value>;
using Objects = cefrodil::object_map<uint64_t, Value>;

static constexpr uint64_t known = 500, fresh = 1000000;

// Each call is a function of its own, as in a program with many of them.
[[gnu::noinline]] static uint64_t look_up(Map &map, uint64_t key) {
    const std::optional<Value> found = map.find(key);
    return found ? (*found)[0] : 0;
}
[[gnu::noinline]] static uint64_t look_up(Objects &map, uint64_t key) {
    uint64_t first = 0;
    static_cast<void>(map.look(key, [&](const Value &value) { first = value[0]; }));
    return first;
}
template <class Any> [[gnu::noinline]] uint64_t put(Any &map, uint64_t key) { return map.insert_or_assign(key, Value{key}).renewed; }

template <class Any> uint64_t call(Any &map, char kind, uint64_t n) {
    switch (kind) {
    case 'h': return look_up(map, n % known);
    case 'm': return look_up(map, fresh + n);
    case 'o': return put(map, n % known);
    default: return put(map, fresh + n);
    }
}

// Some keys are known. A full map has had many others, and the known ones are used again and again.
template <class Any> void fill(Any &map, bool is_full) {
    for (uint64_t key = 0; key < (is_full ? 20 * known : known); key++) {
        if (!map.contains(key % known)) {
            static_cast<void>(put(map, key % known));
        }
        if (is_full) {
            static_cast<void>(put(map, 2 * fresh + key));
        }
    }
}

template <class Any> int costs(Any &&map, char kind, uint64_t calls, bool is_full) {
    if (map.open({1000}) != cefrodil::Status::ok) {
        return 1;
    }
    fill(map, is_full);
    uint64_t sum = 0;
    for (uint64_t n = 0; n < calls; n++) {
        sum += call(map, kind, n);
    }
    std::printf("%llu\n", static_cast<unsigned long long>(sum));
    return 0;
}

int main(int argc, char **argv) {
    if (argc != 4 && argc != 5) {
        return 2;
    }
    const std::string cache = argv[3];
    const uint64_t calls = std::strtoull(argv[2], nullptr, 10);
    const bool is_full = argc == 5;
    return cache == "values" ? costs(Map(), *argv[1], calls, is_full) : costs(Objects(), *argv[1], calls, is_full);
}
