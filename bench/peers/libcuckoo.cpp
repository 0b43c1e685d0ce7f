#include "harness.hpp"
#include <libcuckoo/cuckoohash_map.hh>

// Of the size of the cache's table, and it may not grow.
struct Cuckoo {
    libcuckoo::cuckoohash_map<uint64_t, Value, Mixed> map;

    static size_t slots_for(size_t keys) {
        size_t buckets = 2;
        while (36 * buckets < 10 * keys) buckets *= 2;
        return 4 * buckets;
    }

    explicit Cuckoo(size_t keys) : map(slots_for(keys)) { map.maximum_hashpower(map.hashpower()); }
    bool get(uint64_t key, Value &value) { return map.find(key, value); }

    bool put(uint64_t key, const Value &value) {
        try {
            map.insert_or_assign(key, value);
            return true;
        } catch (const std::exception &) {
            return false;
        }
    }

    size_t slots() { return size_t(4) << map.hashpower(); }
    void enter() {}
    void tick() {}
    void leave() {}
};

int main(int count, char **words) { return contest<Cuckoo>(count, words); }
