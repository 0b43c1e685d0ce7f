// The hash table of userspace RCU, with the cheapest readers: they say now and then that they hold nothing. A put of a key
// that is there replaces its node, which is freed once no reader can see it.
#include "harness.hpp"
#define _LGPL_SOURCE
#include <urcu/urcu-qsbr.h>

#include <urcu/rculfhash.h>

struct Node {
    uint64_t key;
    Value value;
    struct cds_lfht_node link;
    struct rcu_head head;
};

static int has_key(struct cds_lfht_node *link, const void *key) { return caa_container_of(link, Node, link)->key == *static_cast<const uint64_t *>(key); }
static void drop(struct rcu_head *head) { free(caa_container_of(head, Node, head)); }

struct Rcu {
    struct cds_lfht *map;

    explicit Rcu(size_t keys) {
        size_t buckets = 1;
        while (buckets < keys) buckets *= 2;
        map = cds_lfht_new_flavor(buckets, buckets, buckets, 0, &urcu_qsbr_flavor, nullptr);
        if (!map) abort();
    }

    bool get(uint64_t key, Value &value) {
        struct cds_lfht_iter found;
        urcu_qsbr_read_lock();
        cds_lfht_lookup(map, mix(key), has_key, &key, &found);
        struct cds_lfht_node *link = cds_lfht_iter_get_node(&found);
        if (link) value = caa_container_of(link, Node, link)->value;
        urcu_qsbr_read_unlock();
        return link != nullptr;
    }

    bool put(uint64_t key, const Value &value) {
        Node *node = static_cast<Node *>(malloc(sizeof(Node)));
        if (!node) return false;
        node->key = key;
        node->value = value;
        cds_lfht_node_init(&node->link);
        urcu_qsbr_read_lock();
        struct cds_lfht_node *old = cds_lfht_add_replace(map, mix(key), has_key, &key, &node->link);
        if (old) urcu_qsbr_call_rcu(&caa_container_of(old, Node, link)->head, drop);
        urcu_qsbr_read_unlock();
        return true;
    }

    size_t slots() { return 0; }
    void enter() { urcu_qsbr_register_thread(); }
    void tick() { urcu_qsbr_quiescent_state(); }
    void leave() { urcu_qsbr_unregister_thread(); }
};

int main(int count, char **words) { return contest<Rcu>(count, words); }
