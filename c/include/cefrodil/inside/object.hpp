// An object of a map of objects, and what such a map does beside keeping them, for cefrodil_object_map.hpp.
#ifndef CEFRODIL_INSIDE_OBJECT_HPP
#define CEFRODIL_INSIDE_OBJECT_HPP

#include "counts.hpp"
#include "epochs.hpp"
#include "handle.hpp"
#include "lives.hpp"
#include <array>
#include <atomic>
#include <cstdint>
#include <functional>
#include <memory>
#include <new>
#include <utility>

namespace cefrodil {

// Why an object left a map. evicted: another key was put, or the weights were over the bound. expired: its time was over before one of the others
// happened, or invalidate_all had been called since its put.
enum class Left { replaced, evicted, removed, expired };

// What a map of objects does beside keeping them. The listener and the clock throw nothing.
template <class K, class V> struct ObjectRules {
    // Hears of each object that leaves the map, before it is freed, in the call that made it leave; but not of those that `close` frees. It may call
    // the map, but within 16 listeners of a thread a call that writes is refused: too_deep.
    std::function<void(const K &, const V &, Left)> listener = nullptr;
    // What an entry weighs, in any unit, such as bytes. It is asked once, by the thread that puts the entry, and must not call the map. None: the map is
    // bounded by its number of entries alone.
    std::function<uint64_t(const K &, const V &)> weigher = nullptr;
    // The bound on the sum of the weights, 0 to 2^48. A larger number is taken for 2^48.
    uint64_t most_weight = uint64_t(1) << 48;
    // How long entries live.
    Lives lives = {};
};

namespace inside {

// How many listeners of this thread run within each other. Within so many a call that writes is refused, so that the stack does not overflow.
inline constexpr uint32_t most_listeners = 16;
inline uint32_t &listeners() noexcept {
    static thread_local uint32_t depth = 0;
    return depth;
}

// An object of a map. Its address is the word of an entry in the index.
template <class K, class V> struct Object : Retired {
    // What it is made as: this alone, a WeighedObject, or a MortalObject.
    enum Kind : uint8_t { unmade, plain, weighed, mortal };

    // The function gives the value. It is called when there is memory for it. The kind is unmade.
    template <class Key, class Give> Object(const Key &its_key, const Give &give) : key(its_key), value(give()) {}
    // The word of an entry. What the index orders, the load of the head orders by the rules of the language, too: so ThreadSanitizer sees it.
    static Object *found_at(uint64_t word) noexcept { return reinterpret_cast<Object *>(static_cast<uintptr_t>(word)); }
    static Object *at(uint64_t word) noexcept {
        Object *const found = found_at(word);
        static_cast<void>(found->kind());
        return found;
    }
    std::array<uint64_t, 1> word() const noexcept { return {static_cast<uint64_t>(reinterpret_cast<uintptr_t>(this))}; }
    static Kind kind_of(uint64_t head) noexcept { return static_cast<Kind>(head & all_kinds); }
    static uint64_t generation_of(uint64_t head) noexcept { return head / (all_kinds + 1); }
    Kind kind() const noexcept { return kind_of(head.load(std::memory_order_acquire)); }
    uint64_t generation() const noexcept { return generation_of(head.load(std::memory_order_acquire)); }
    // It is what it will be, and may be put. Called again, it moves the object to another generation. It is the last step before a put: what a call
    // reads of its own object after it would be a race with the end of the object, as ThreadSanitizer sees it.
    void end_making(Kind its_kind, uint64_t generation) noexcept {
        head.store(generation * (all_kinds + 1) + its_kind, std::memory_order_release);
    }

    // The kind, and before it the generation.
    static constexpr uint64_t all_kinds = 0xff;
    std::atomic<uint64_t> head{unmade};
    std::atomic<uint32_t> owners{1}; // the map, and each pin
    const K key;
    V value;
};

// The same in a map that bounds the sum of weights.
template <class K, class V> struct WeighedObject : Object<K, V> {
    using Object<K, V>::Object;
    uint64_t weight = 0; // written before it is put
    static WeighedObject &of(Object<K, V> &object) noexcept { return static_cast<WeighedObject &>(object); }
};

// The same with deadlines. In a map that bounds no sum its weight says nothing.
template <class K, class V> struct MortalObject final : WeighedObject<K, V> {
    using WeighedObject<K, V>::WeighedObject;
    uint64_t deadline = never; // written before it is put
    std::atomic<uint64_t> idle_deadline{never}; // relaxed: it says nothing of other memory
    static MortalObject &of(Object<K, V> &object) noexcept { return static_cast<MortalObject &>(object); }
};

// Counts an object while pins keep it that its map has dropped.
class Kept : public Retired {
  public:
    Kept(std::shared_ptr<Lines> lines, uint64_t weight) noexcept : lines_(std::move(lines)), weight_(weight) { lines_->keep(1, weight_); }
    Kept(const Kept &) = delete;
    Kept &operator=(const Kept &) = delete;
    ~Kept() { lines_->keep(uint64_t(0) - 1, weight_); }

  private:
    const std::shared_ptr<Lines> lines_;
    const uint64_t weight_;
};

// Before a map drops an object: if pins keep it, counts it until it is destroyed. Its `next` has no other use any more. Without memory it isn't counted.
template <class K, class V> void keep(Object<K, V> &object, const std::shared_ptr<Lines> &lines, uint64_t weight) noexcept {
    const bool is_pinned = object.owners.load(std::memory_order_relaxed) != 1;
    object.next = is_pinned && lines ? new (std::nothrow) Kept(lines, weight) : nullptr;
}

// Destroys an object, unless another owner has it. The first one has put it. Each later one has found it before it could be freed, so nobody becomes an
// owner while the last one looks.
struct Destroy {
    template <class K, class V> void operator()(Object<K, V> *object) const noexcept {
        if (object->owners.load(std::memory_order_acquire) != 1 && object->owners.fetch_sub(1, std::memory_order_acq_rel) != 1) {
            return;
        }
        const std::unique_ptr<Kept> kept(static_cast<Kept *>(object->next));
        switch (object->kind()) {
        case Object<K, V>::mortal: delete &MortalObject<K, V>::of(*object); break;
        case Object<K, V>::weighed: delete &WeighedObject<K, V>::of(*object); break;
        default: delete object;
        }
    }
};

// Ends a pin.
struct Unpin {
    template <class V> void operator()(const V *) const noexcept { drop(object); }
    void (*drop)(void *object) noexcept = nullptr;
    void *object = nullptr;
};

} // namespace inside

// The value of an object that is kept until this ends: also when the object has left the map, and when the map is closed. It may end in any thread. Then
// the object is destroyed there, if it has left. Null: there is no object.
template <class V> using pinned = std::unique_ptr<const V, inside::Unpin>;

// The answer of extract. `value` is there if the status is ok.
template <class V> struct Extracted {
    Status status;
    pinned<V> value;
};

namespace inside {

// For a call that keeps the object meanwhile. Relaxed: the end of that call comes before the object is freed.
template <class K, class V> pinned<V> pin_of(Object<K, V> &object) noexcept {
    object.owners.fetch_add(1, std::memory_order_relaxed);
    return pinned<V>(std::addressof(object.value), {[](void *its) noexcept { Destroy()(static_cast<Object<K, V> *>(its)); }, &object});
}

} // namespace inside

} // namespace cefrodil

#endif
