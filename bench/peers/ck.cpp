// The hash table of Concurrency Kit for one writer and many readers. Its values are pointers, so a put makes a node. A node that was replaced is
// freed once no reader can see it: readers say now and then that they hold nothing, as with userspace RCU.
#include "harness.hpp"
#define _LGPL_SOURCE
#include <urcu/urcu-qsbr.h>

extern "C" {
#include <ck_ht.h>
}

struct Node {
    Value value;
    struct rcu_head head;
};

static void drop(struct rcu_head *head) { free(caa_container_of(head, Node, head)); }
static void hash(ck_ht_hash_t *into, const void *key, size_t, uint64_t) { into->value = mix(*static_cast<const uint64_t *>(key)); }
static void *allocate(size_t size) { return malloc(size); }
static void release(void *block, size_t, bool) { free(block); }
// The table grows before readers come.
static struct ck_malloc allocator = {allocate, nullptr, release};

struct Ck {
    mutable ck_ht_t map;

    explicit Ck(size_t keys) {
        if (!ck_ht_init(&map, CK_HT_MODE_DIRECT, hash, &allocator, 2 * keys, 1)) abort();
    }

    bool get(uint64_t key, Value &value) {
        ck_ht_hash_t hashed;
        ck_ht_entry_t entry;
        ck_ht_hash_direct(&hashed, &map, key);
        ck_ht_entry_key_set_direct(&entry, key);
        if (!ck_ht_get_spmc(&map, hashed, &entry)) return false;
        value = reinterpret_cast<Node *>(ck_ht_entry_value_direct(&entry))->value;
        return true;
    }

    bool put(uint64_t key, const Value &value) {
        Node *node = static_cast<Node *>(malloc(sizeof(Node)));
        if (!node) return false;
        node->value = value;
        ck_ht_hash_t hashed;
        ck_ht_entry_t entry;
        ck_ht_hash_direct(&hashed, &map, key);
        ck_ht_entry_set_direct(&entry, hashed, key, reinterpret_cast<uintptr_t>(node));
        if (!ck_ht_set_spmc(&map, hashed, &entry)) return false;
        if (!ck_ht_entry_empty(&entry)) urcu_qsbr_call_rcu(&reinterpret_cast<Node *>(ck_ht_entry_value_direct(&entry))->head, drop);
        return true;
    }

    size_t slots() { return 0; }
    void enter() { urcu_qsbr_register_thread(); }
    void tick() { urcu_qsbr_quiescent_state(); }
    void leave() { urcu_qsbr_unregister_thread(); }
};

int main(int count, char **words) { return contest<Ck>(count, words); }
