#include "handles.hpp"
#include "harness.hpp"

enum { READERS = 8 };

// The cache as programs in C call it: with one shard, whose turn one handle holds. A thread has another handle while it looks up.
struct Door : Handles<READERS + 1> {
    static inline uint32_t policy;
    cefrodil_shape shape;

    explicit Door(size_t keys) {
        if (cefrodil_shape_for_items(uint32_t(keys), 1, &shape) != CEFRODIL_OK) abort();
        shape.policy = policy;
        if (cefrodil_open(&shape, 1, 4, handles, READERS + 1) != CEFRODIL_OK) abort();
        if (cefrodil_hold(&handles[READERS]) != CEFRODIL_OK) abort();
        left = READERS;
    }

    bool get(uint64_t key, Value &value) {
        cefrodil_reply reply;
        return cefrodil_get(&mine, key, value.data(), value.size(), &reply) == CEFRODIL_OK;
    }

    bool put(uint64_t key, const Value &value) {
        cefrodil_reply reply;
        return cefrodil_put(&handles[READERS], key, value.data(), value.size(), &reply) == CEFRODIL_OK;
    }

    size_t put_many(const uint64_t *keys, const Value *values, size_t many) {
        cefrodil_put_answer answers[MOST];
        if (cefrodil_put_many(&handles[READERS], keys, many, values[0].data(), 4 * many, answers, many) != CEFRODIL_OK) abort();
        size_t refused = 0;
        for (size_t n = 0; n < many; n++) refused += answers[n].status != CEFRODIL_OK;
        return refused;
    }

    size_t slots() { return size_t(4) * shape.buckets; }
};

int main(int count, char **words) {
    Door::policy = Options(count, words).clock ? CEFRODIL_POLICY_CLOCK : CEFRODIL_POLICY_SCAN_RESISTANT;
    return contest<Door>(count, words);
}
