// How the objects of a map are made, and when they end, for objects.hpp.
#ifndef CEFRODIL_INSIDE_OBJECT_MAKER_HPP
#define CEFRODIL_INSIDE_OBJECT_MAKER_HPP

#include "object.hpp"
#include <chrono>
#include <memory>
#include <new>
#include <optional>
#include <type_traits>
#include <utility>

namespace cefrodil::inside {

// Makes the objects of a map by its rules, and knows which of them have expired.
template <class K, class V> class ObjectMaker {
  public:
    using Each = Object<K, V>;
    using Heavy = WeighedObject<K, V>;
    using Dated = MortalObject<K, V>;
    using Own = std::unique_ptr<Each, Destroy>;
    using Rules = ObjectRules<K, V>;

    explicit ObjectMaker(Rules &&its_rules) : rules_(std::move(its_rules)), clock_(rules_.lives) {}

    // Makes an object of this generation. None without memory: then the function is not called.
    template <class Key, class Give>
    [[gnu::always_inline]] Own make(const Key &key, const Give &give, uint64_t generation, uint64_t deadline) const {
        if (clock_.has_lives() || deadline != never) {
            return make_mortal(key, give, generation, deadline);
        }
        return rules_.weigher ? made<Heavy>(Each::weighed, key, give, generation) : made<Each>(Each::plain, key, give, generation);
    }
    // Of what is put now, with a time to live of its own or that of the map.
    uint64_t deadline(const std::optional<std::chrono::nanoseconds> &life) const noexcept { return clock_.deadline(life); }
    static uint64_t deadline_of(Each &object) noexcept { return is_mortal(object) ? Dated::of(object).deadline : never; }
    // For a call of this generation.
    bool has_ended(Each &object, uint64_t generation) const noexcept { return object.generation() < generation || has_expired(object); }

  protected:
    // No call uses the object any more. What is counted is counted there.
    void drop(Each *object, const std::shared_ptr<Lines> &lines) const noexcept {
        const Own own(object);
        keep(*own, lines, rules_.weigher ? Heavy::of(*own).weight : 0);
    }
    bool has_lives() const noexcept { return clock_.has_lives(); }
    // A call of this generation has found it. Whether it has not ended: then its time to idle begins anew.
    [[gnu::always_inline]] bool is_used(Each &object, uint64_t generation) const noexcept {
        const uint64_t head = object.head.load(std::memory_order_acquire);
        return Each::generation_of(head) >= generation && (Each::kind_of(head) != Each::mortal || is_used_in_time(Dated::of(object)));
    }

    const Rules rules_;

  private:
    static bool is_mortal(const Each &object) noexcept { return object.kind() == Each::mortal; }
    bool has_expired(Each &object) const noexcept {
        return is_mortal(object) &&
               (clock_.has_passed(Dated::of(object).deadline) || clock_.has_passed(Dated::of(object).idle_deadline.load(std::memory_order_relaxed)));
    }
    [[gnu::noinline]] bool is_used_in_time(Dated &object) const noexcept {
        const bool is_live = !has_expired(object);
        if (is_live && clock_.is_due(object.idle_deadline.load(std::memory_order_relaxed))) {
            object.idle_deadline.store(clock_.idle_deadline(), std::memory_order_relaxed);
        }
        return is_live;
    }
    template <class Made, class Key, class Give>
    Own made(typename Each::Kind kind, const Key &key, const Give &give, uint64_t generation, [[maybe_unused]] uint64_t deadline = never) const {
        std::unique_ptr<Made> object(new (std::nothrow) Made(key, give));
        if (!object) {
            return Own();
        }
        if constexpr (!std::is_same_v<Made, Each>) {
            object->weight = rules_.weigher ? rules_.weigher(object->key, object->value) : 0;
        }
        if constexpr (std::is_same_v<Made, Dated>) {
            object->deadline = deadline;
            object->idle_deadline.store(clock_.idle_deadline(), std::memory_order_relaxed);
        }
        object->end_making(kind, generation);
        return Own(object.release());
    }
    template <class Key, class Give>
    [[gnu::cold]] [[gnu::noinline]] Own make_mortal(const Key &key, const Give &give, uint64_t generation, uint64_t deadline) const {
        return made<Dated>(Each::mortal, key, give, generation, deadline);
    }

    const Clock clock_;
};

} // namespace cefrodil::inside

#endif
