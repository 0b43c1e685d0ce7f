// The entries of a map of objects, for cefrodil_object_map.hpp: what the index has, and what has left it.
#ifndef CEFRODIL_INSIDE_OBJECTS_HPP
#define CEFRODIL_INSIDE_OBJECTS_HPP

#include "entries.hpp"
#include "object_maker.hpp"
#include "weights.hpp"
#include <algorithm>
#include <array>
#include <atomic>
#include <memory>
#include <new>
#include <optional>
#include <type_traits>
#include <utility>

namespace cefrodil::inside {

// The entries of a map of objects, and what has left them.
template <class K, class V> class Objects : public Entries<1, Epochs>, public ObjectMaker<K, V> {
    using Maker = ObjectMaker<K, V>;
    using Maker::rules_;

  public:
    using typename Maker::Each;
    using typename Maker::Heavy;
    using typename Maker::Own;
    using typename Maker::Rules;
    using Maker::has_ended;

    explicit Objects(Rules &&its_rules) : Maker(std::move(its_rules)), weights_(allowed_weight(rules_.most_weight)) {}
    Objects(const Objects &) = delete;
    Objects &operator=(const Objects &) = delete;
    // No call runs any more. Without memory for a list of the entries, their objects leak.
    ~Objects() {
        const auto destroy = [this](uint64_t, const auto &word) { return this->drop(Each::at(word[0]), lines()), Status::ok; };
        static_cast<void>(is_open_ ? each_listed(destroy) : Status::closed);
        static_cast<void>(free_now());
    }

    [[nodiscard]] Status open(uint32_t entries, uint32_t shards, uint32_t passes, uint32_t tries) noexcept {
        const Status status = Entries::open(entries, shards, passes, tries);
        is_open_ = status == Status::ok;
        if (is_open_ && !(has_memory([&] { weights_.divide(this->shards()); }) && open_cursors())) {
            return Status::no_memory;
        }
        waiting_weight_ = is_open_ && lines() ? &lines()->waiting_weight() : &uncounted_;
        return status;
    }

    // What is under a number, and the moment of its put. None: the status says why. If it is absent and the moment is not 0, what is there has ended.
    struct Seen {
        Status status;
        Each *object;
        uint64_t since;
    };
    // The only way to an object: none that is found while this lives is freed before it ends.
    class Pinned {
      public:
        explicit Pinned(Objects &those) noexcept : objects_(those), slot_(those.own_slot()), own_(those.beside(), slot_ != nullptr ? &slot_->beside : nullptr) {}
        [[gnu::always_inline]] Seen look(uint64_t index, const uint32_t &most, uint64_t generation) const noexcept {
            std::array<uint64_t, 1> word;
            const inside::Seen seen = objects_.get(slot_, index, most, word);
            if (seen.status != Status::ok) {
                return {seen.status, nullptr, seen.since};
            }
            return used(word[0], seen.since, generation);
        }
        // The same, also what has ended. It is no use of the object.
        Seen look_at_all(uint64_t index, uint32_t most) const noexcept {
            std::array<uint64_t, 1> word;
            const inside::Seen seen = objects_.get(slot_, index, most, word);
            return {seen.status, seen.status == Status::ok ? Each::found_at(word[0]) : nullptr, seen.since};
        }
        // As `look`, of a few keys, by one call of the index.
        void look_few(const Identity *keys, size_t count, uint64_t generation, Seen *seen) const noexcept {
            std::array<std::array<uint64_t, 1>, few_keys> words;
            std::array<cefrodil_answer, few_keys> answers;
            objects_.get_few(keys, count, words.data(), answers.data());
            for (size_t n = 0; n < count; n++) {
                if (answers[n].status == CEFRODIL_OK) {
                    seen[n] = used(words[n][0], answers[n].since, generation);
                } else {
                    const bool is_absent = answers[n].status == CEFRODIL_ABSENT;
                    seen[n] = is_absent ? Seen{Status::absent, nullptr, 0} : look(keys[n].index, objects_.looks(), generation);
                }
            }
        }
        // Counts a lookup of the map.
        [[gnu::always_inline]] void count(Status status) const noexcept { objects_.count(slot_, static_cast<Counted>(status)); }
        // The same as `look`, which is no use of the object. It takes the turn at the key's shard, so the status may be held, and never busy.
        Seen peek(uint64_t index, uint64_t generation) const noexcept {
            const Answer<1> answer = objects_.repeated([&](OwnSlot &slot) { return slot.handle.try_peek(index); });
            if (!answer.value) {
                return {answer.status, nullptr, answer.since};
            }
            Each *const object = Each::at((*answer.value)[0]);
            return objects_.has_ended(*object, generation) ? Seen{Status::absent, nullptr, answer.since} : Seen{Status::ok, object, answer.since};
        }

      private:
        [[gnu::always_inline]] Seen used(uint64_t word, uint64_t since, uint64_t generation) const noexcept {
            Each *const object = Each::found_at(word);
            return objects_.is_used(*object, generation) ? Seen{Status::ok, object, since} : Seen{Status::absent, nullptr, since};
        }

        Objects &objects_;
        OwnSlot *const slot_;
        Epochs::Pinned own_;
    };

    // What a put or a removal takes out of the index. It is ended with this: the listener hears of it, and then it is retired. So the caller has no pin
    // and no lock of its own then.
    struct Change {
        explicit Change(Objects &those) noexcept : objects(those) {}
        Change(const Change &) = delete;
        Change &operator=(const Change &) = delete;
        ~Change() { objects.end(*this); }

        Objects &objects;
        Each *old = nullptr; // what was removed, or gave way to the put
        Left why = Left::removed; // of that
        bool renewed = false, evicted = false; // as in `Stored`
        Retired *first = nullptr, **last = &first; // all that has left, each with the next one
    };
    // Puts whatever is there. The object gets the generation with the key's lock, so what gives way is of no newer one.
    [[gnu::always_inline]] Status put(uint64_t index, Own &object, Change &change) noexcept {
        const auto is_new = [&] { return !has(index); };
        return offered(index, object, change, is_new, [&](OwnSlot &slot) {
            object->end_making(object->kind(), generations.now());
            return slot.swap(index, object->word(), is_full());
        });
    }
    // Puts where nothing is, if the moment is 0, or else over what has ended and was put then. present: something is there. stale: the object was
    // computed in a generation that has ended.
    Status put_new(uint64_t index, uint64_t since, Own &object, bool is_computed, Change &change) noexcept {
        const auto is_new = [&] { return since == 0; };
        return offered(index, object, change, is_new, [&](OwnSlot &slot) {
            if (!begins(*object, is_computed)) {
                return refusal<Swapped<1>>(Status::stale);
            }
            return since != 0 ? slot.handle.try_swap_if(index, since, object->word())
                              : slot.swap_if_absent(index, object->word(), is_full());
        });
    }
    // Puts over what was put at that moment, in the generation that the object has.
    Status replace(uint64_t index, uint64_t since, Own &object, Change &change) noexcept {
        const auto is_new = [] { return false; };
        return offered(index, object, change, is_new, [&](OwnSlot &slot) {
            object->end_making(object->kind(), object->generation());
            return slot.handle.try_swap_if(index, since, object->word());
        });
    }
    // What gave way is no older value of the key: it is another key's, or had ended.
    void gave_way(Change &change) noexcept {
        change.why = Left::evicted, change.renewed = false, change.evicted = true;
        if (!has_ended(*change.old, generations.now())) {
            count_beside_calls(own_slot(), evictions);
        }
    }
    // Removes what was put at that moment.
    Status take(uint64_t index, uint64_t since, Change &change) noexcept {
        return removed(index, change, [&](OwnSlot &slot) { return slot.handle.try_take_if(index, since); });
    }
    Status clear() noexcept {
        flights.outdate_all();
        return each_listed([this](uint64_t index, const auto &) {
            Change change(*this);
            return removed(index, change, [&](OwnSlot &slot) { return slot.handle.try_take(index); });
        });
    }
    // Calls with each object that has not ended. What the list has stays, since this is pinned before.
    template <class See> Status for_each(const See &see) {
        const Pinned pinned(*this);
        return each_listed([&](uint64_t, const auto &word) {
            Each &object = *Each::at(word[0]);
            has_ended(object, generations.now()) ? void() : see(object);
            return Status::ok;
        });
    }
    // Removes each object that has not ended and of which `leaves` says so.
    template <class Leaves> Erased erase_if(const Leaves &leaves) {
        const auto find = [&](uint64_t index) {
            const Pinned pinned(*this);
            const Seen seen = pinned.peek(index, generations.now());
            return inside::Seen{seen.status == Status::ok && !leaves(*seen.object) ? Status::absent : seen.status, seen.since};
        };
        return erase_each(find, [this](uint64_t index, uint64_t since) {
            Change change(*this);
            return take(index, since, change);
        });
    }
    // Removes what has expired or is of an older generation.
    Status erase_expired() noexcept {
        return each_listed([this](uint64_t index, const auto &) {
            const Seen seen = Pinned(*this).peek(index, generations.now());
            Change change(*this);
            return seen.status == Status::absent && seen.since != 0 ? ended_by(take(index, seen.since, change)) : seen.status;
        });
    }
    size_t free_now() noexcept { return free(beside().free_now()); }
    // How many objects have left and wait to be freed, and what they weigh.
    uint64_t waiting() noexcept { return beside().waiting(); }
    uint64_t waiting_weight() const noexcept { return waiting_weight_->load(std::memory_order_relaxed); }
    // The weights of all objects that are there, with those that calls are about to put. Without a weigher 0.
    uint64_t weight() const noexcept { return weights_.sum(); }
    // Changes their bound, and evicts what is too much.
    Status set_most_weight(uint64_t most) noexcept {
        if (is_too_deep()) {
            return Status::too_deep;
        }
        weights_.set_bound(allowed_weight(most));
        Change change(*this);
        shrink(change);
        return weights_.is_over() ? Status::held : Status::ok;
    }
    // Changes the bound on the number of objects, and evicts what is too much.
    Status set_capacity(uint64_t most) noexcept {
        Change change(*this);
        return is_too_deep() ? Status::too_deep : bound_keys(most, [&](uint64_t near) { return evict(near, by_capacity, change); });
    }

  private:
    static uint64_t allowed_weight(uint64_t most) noexcept { return std::min(most, Rules().most_weight); }
    // With the key's lock. The object gets the generation of now, or, if it was computed, must have that.
    bool begins(Each &object, bool is_computed) noexcept {
        const uint64_t now = generations.now(), own = object.generation();
        object.end_making(object.kind(), is_computed ? own : now);
        return !is_computed || own == now;
    }
    template <bool Once = false, class Take> Status removed(uint64_t index, Change &change, Take take) noexcept {
        if (is_too_deep()) {
            return Status::too_deep;
        }
        const auto make = [&](OwnSlot &slot) {
            const Swapped<1> tried = take(slot);
            slot.add(tried.status == Status::ok ? -1 : 0);
            return tried;
        };
        const Swapped<1> taken = Once ? locked_once(index, make) : locked(index, make);
        if (taken.old) {
            change.old = out(index, *taken.old, change);
        }
        return left(taken.status);
    }
    // The index has it no more. Returns it, by its word and any key of its shard.
    Each *out(uint64_t key, const std::array<uint64_t, 1> &word, Change &change) noexcept {
        Each *const object = Each::at(word[0]);
        if (rules_.weigher) {
            weights_.subtract(key, Heavy::of(*object).weight);
        }
        object->next = nullptr;
        *std::exchange(change.last, &object->next) = object;
        return object;
    }
    // `make` is called with the key's lock, at each try. `is_new`: whether the key has no object so far, if that is asked.
    template <class IsNew, class Make>
    [[gnu::always_inline]] Status offered(uint64_t index, Own &object, Change &change, IsNew is_new, Make make) noexcept {
        if (is_too_deep()) {
            return Status::too_deep;
        }
        if (this->has_lives()) {
            sweep(index, change);
        }
        return rules_.weigher ? offered_weighed(index, object, change, is_new, make) : ended(index, object, change, locked(index, make));
    }
    // Removes what has ended at two places of the key's shard, so that no other object leaves for a new one.
    [[gnu::noinline]] void sweep(uint64_t key, Change &change) noexcept {
        const Pinned pinned(*this);
        each_placed(key, [&](uint64_t index, const auto &word, uint64_t since) {
            if (has_ended(*Each::at(word[0]), generations.now())) {
                ended_by(removed<true>(index, change, [&](OwnSlot &slot) { return slot.handle.try_take_if(index, since); }));
                change.old = nullptr;
            }
        });
    }
    // Others leave for a new key before it is put, so that it is not itself what gives way.
    template <class IsNew, class Make>
    [[gnu::noinline]] Status offered_weighed(uint64_t index, Own &object, Change &change, IsNew &is_new, Make &make) noexcept {
        const uint64_t weight = Heavy::of(*object).weight;
        if (weight > weights_.bound()) {
            return Status::too_heavy;
        }
        weights_.add(index, weight);
        if (weights_.is_over() && is_new()) {
            shrink(change);
        }
        const Status status = ended(index, object, change, locked(index, make));
        if (status != Status::ok) {
            weights_.subtract(index, weight);
        }
        shrink(change);
        return status;
    }
    // Evicts objects until the others are within the bound. It gives up if there are none, or after so many tries: then a later put goes on.
    void shrink(Change &change) noexcept {
        Status status = Status::ok;
        for (uint32_t held = 0; weights_.is_over() && status != Status::absent && held <= tries();) {
            status = weights_.evict_from(shards(), [&](uint64_t near) { return evict(near, by_weight, change); });
            status == Status::ok ? void(held = 0) : wait_before(held++);
        }
    }
    // Evicts an object of the shard that has this key.
    Status evict(uint64_t near, Counted cause, Change &change) noexcept {
        const Swapped<1> taken = call([near, cause](OwnSlot &slot) { return slot.evict(near, cause); });
        if (taken.old) {
            static_cast<void>(out(near, *taken.old, change));
            change.evicted = true;
        }
        return left(taken.status);
    }
    void end(Change &change) noexcept {
        for (Retired *next = change.first; next != nullptr;) {
            Each &object = *static_cast<Each *>(std::exchange(next, next->next));
            retire(object, &object == change.old ? change.why : Left::evicted);
        }
        free_much();
    }
    void retire(Each &object, Left why) noexcept {
        if (rules_.listener) {
            listeners()++;
            rules_.listener(object.key, object.value, has_ended(object, generations.now()) ? Left::expired : why);
            listeners()--;
        }
        OwnSlot *const slot = own_slot();
        count_waiting(slot, object, 1);
        static_cast<void>(free(beside().retire(object, place_of(slot))));
    }
    void count_waiting(OwnSlot *slot, Each &object, int64_t more) noexcept {
        count(slot, inside::waiting, static_cast<uint64_t>(more));
        if (rules_.weigher) {
            waiting_weight_->fetch_add(static_cast<uint64_t>(more) * Heavy::of(object).weight, std::memory_order_relaxed);
        }
    }
    // Frees what it can if more than a sixteenth of the bound waits. Without a weigher nothing weighs.
    void free_much() noexcept {
        if (rules_.weigher && waiting_weight() > weights_.bound() / 16) {
            static_cast<void>(free_now());
        }
    }
    // The index has the object now, unless the put failed.
    Status ended(uint64_t index, Own &object, Change &change, const Swapped<1> &swapped) noexcept {
        if (swapped.status != Status::ok) {
            if (swapped.old) {
                // It left for the object, which then found no place.
                static_cast<void>(out(index, *swapped.old, change));
                change.evicted = true;
                static_cast<void>(left(Status::ok));
            }
            return swapped.status;
        }
        static_cast<void>(object.release());
        if (swapped.old) {
            change.old = out(index, *swapped.old, change);
            change.renewed = !swapped.evicted, change.evicted = change.evicted || swapped.evicted;
            change.why = change.renewed ? Left::replaced : Left::evicted;
        } else {
            keep_bound(index, [&](uint64_t near) { return evict(near, by_capacity, change); });
        }
        return Status::ok;
    }
    // Returns how many objects it has freed. Those that it leaves to an outer call are not among them.
    size_t free(Retired *first) noexcept {
        if (first == nullptr) {
            return 0;
        }
        if (Freeing *const outer = Freeing::of(this)) {
            outer->add(first);
            return 0;
        }
        Freeing all(this, first);
        size_t count = 0;
        for (Retired *next = all.next(); next != nullptr; next = all.next(), count++) {
            Each *const object = static_cast<Each *>(next);
            count_waiting(own_slot(), *object, -1);
            this->drop(object, lines());
        }
        return count;
    }
    // Whether the call comes from so many listeners within each other that it is refused.
    bool is_too_deep() const noexcept { return rules_.listener && listeners() >= most_listeners; }

    bool is_open_ = false;
    Weights weights_;
    // That of what has left and waits to be freed. All puts of a map with a weigher share a sum, so they may share this.
    std::atomic<uint64_t> uncounted_{0}, *waiting_weight_ = &uncounted_;
};

} // namespace cefrodil::inside

#endif
