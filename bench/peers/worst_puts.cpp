// What the cache costs at worst, called from C: opening it, a put when every item was used, and a put that is refused since both buckets of
// the key are full and no path leads to an empty slot.
//
// usage: worst_puts ITEMS SEED     prints one line of JSON
#include "harness.hpp"
#include "cefrodil.h"
#include <algorithm>
#include <malloc.h>
#include <vector>

// A table of one shard. The first handle holds its turn.
struct Open {
    std::vector<cefrodil_handle> handles;
    double seconds;

    Open(const cefrodil_shape &shape, size_t many) : handles(many, cefrodil_handle(CEFRODIL_EMPTY)) {
        double began = now(true);
        if (cefrodil_open(&shape, 1, 4, handles.data(), many) != CEFRODIL_OK) abort();
        seconds = now(true) - began;
        if (cefrodil_hold(&handles[0]) != CEFRODIL_OK) abort();
    }

    ~Open() {
        for (auto &handle : handles) cefrodil_close(&handle);
    }

    // What a put of the key answers, and how long it took.
    uint32_t put(uint64_t key, cefrodil_reply &reply, double &took) {
        uint64_t value[4] = {1, 1, 1, 1};
        double began = now(true);
        uint32_t status = cefrodil_put(&handles[0], key, value, 4, &reply);
        took = now(true) - began;
        return status;
    }

    bool get(uint64_t key) {
        uint64_t value[4];
        cefrodil_reply reply;
        return cefrodil_get(&handles[1], key, value, 4, &reply) == CEFRODIL_OK;
    }
};

static double median(std::vector<double> values) {
    std::sort(values.begin(), values.end());
    return values[values.size() / 2];
}

// Fills a table, looks every key up, and puts a new one, for which the hand passes all items once. The median of three such puts.
static double put_when_all_are_used(const cefrodil_shape &shape, uint64_t first, double &opening) {
    Open table(shape, 2);
    opening = table.seconds;
    cefrodil_reply reply;
    double took;
    uint64_t next = 0;
    while (next < shape.items) table.put(key_of(first + next++), reply, took);
    std::vector<double> spent;
    while (spent.size() < 3) {
        for (uint64_t n = 0; n < next; n++) table.get(key_of(first + n));
        if (table.put(key_of(first + next++), reply, took) == CEFRODIL_OK && reply.put == CEFRODIL_PUT_EVICTED) spent.push_back(took);
    }
    return median(spent);
}

// Fills a table with as many items as slots until a put is refused. The median of a thousand refused puts from there on.
static double refused_put(cefrodil_shape shape, uint64_t first) {
    shape.items = 4 * shape.buckets;
    Open table(shape, 1);
    cefrodil_reply reply;
    std::vector<double> spent;
    for (uint64_t n = 0; spent.size() < 1000; n++) {
        double took;
        if (table.put(key_of(first + n), reply, took) == CEFRODIL_NO_PATH) spent.push_back(took);
    }
    return median(spent);
}

// The heap of a table with `many` handles.
static double heap_of(const cefrodil_shape &shape, size_t many) {
    double before = mallinfo2().uordblks;
    Open table(shape, many);
    return mallinfo2().uordblks - before - table.handles.capacity() * sizeof(cefrodil_handle);
}

// The heap that one more handle takes.
static double handle_bytes(const cefrodil_shape &shape) { return (heap_of(shape, 1001) - heap_of(shape, 1)) / 1000; }

int main(int count, char **words) {
    if (count != 3) return 2;
    cefrodil_shape shape;
    if (cefrodil_shape_for_items(uint32_t(atol(words[1])), 1, &shape) != CEFRODIL_OK) return 2;
    shape.items = uint32_t(atol(words[1]));
    uint64_t first = strtoull(words[2], nullptr, 10) << 32;
    double opening, used = put_when_all_are_used(shape, first, opening);
    cefrodil_shape small;
    if (cefrodil_shape_for_items(1000, 1, &small) != CEFRODIL_OK) return 2;
    printf("{\"opening_ms\":%.4f,\"all_used_ms\":%.4f,\"refused_us\":%.4f,\"handle_bytes\":%.1f}\n", opening * 1e3, used * 1e3,
        refused_put(shape, first) * 1e6, handle_bytes(small));
}
