#include "full_cache.hpp"
#include "handles.hpp"
#include "harness.hpp"

enum { THREADS = 8, SHARDS = 64, TRIES = 1000000 };

// The cache as programs in C call it whose threads all write: with 64 shards, and a handle for each thread. A write tries until it has the
// turn of its key's shard, but so often at most.
struct DoorShards : Handles<THREADS> {
    cefrodil_shape shape;
    uint32_t shards;

    explicit DoorShards(size_t keys) : shards(SHARDS) {
        if (cefrodil_shape_for_items(uint32_t(keys), shards, &shape) != CEFRODIL_OK) abort();
        open();
    }

    // A full cache. Each shard has just its share of the items, in the buckets that the library gives to a shard with more.
    explicit DoorShards(const Options &options) : shards(uint32_t(options.shards)) {
        if (cefrodil_shape_for_items(uint32_t(options.capacity), shards, &shape) != CEFRODIL_OK) abort();
        shape.items = uint32_t(options.capacity) / shards;
        shape.policy = options.clock ? CEFRODIL_POLICY_CLOCK : CEFRODIL_POLICY_SCAN_RESISTANT;
        open();
    }

    void open() {
        if (cefrodil_open(&shape, shards, 4, handles, THREADS) != CEFRODIL_OK) abort();
    }

    bool get(uint64_t key, Value &value) {
        cefrodil_reply reply;
        return cefrodil_get_or_turn(&mine, key, value.data(), value.size(), &reply) == CEFRODIL_OK;
    }

    bool put(uint64_t key, const Value &value) {
        cefrodil_reply reply;
        return cefrodil_put_within(&mine, TRIES, key, value.data(), value.size(), &reply) == CEFRODIL_OK;
    }

    size_t slots() { return size_t(4) * shards * shape.buckets; }
};

int main(int count, char **words) {
    const Options options(count, words);
    return options.workload == "cache" ? full_cache<DoorShards>(options) : contest<DoorShards>(count, words);
}
