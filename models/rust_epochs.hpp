// When an object of the crate `cefrodil-map` is freed, line by line. .ci/models checks that each quoted line is still there.
//| in map/src/objects/epochs.rs
//
// One thread removes two objects one after the other and frees what may be freed. Another thread, which has a slot, looks objects up. One without a
// slot looks one up, and then frees what may be freed of the first thread's. No object is used after it is freed, and each use comes before the
// free in the order of the memory model.
//
// The index is one entry: a lookup is an acquire load, a removal acquires and releases. A step of the crate that is sequentially consistent, and so a
// locked instruction, is a weaker one here, with a fence after it where a schedule needs that.
#ifndef RUST_EPOCHS_HPP
#define RUST_EPOCHS_HPP

#include "explored.hpp"
#include <algorithm>

struct RustEpochs : rl::test_suite<RustEpochs, 3> {
    static constexpr unsigned interruptions = 2;
    static constexpr std::array<std::string_view, 10> steps{
        "fence of an announcement",    "fence of a retirement",       "acquire of the epoch",
        "fence of a new epoch",        "acquire of an announcement",  "release of the end of a pin",
        "lock of pins without a slot", "read of pins without a slot", "removal before the retirement",
        "end of the epoch that begins"};

    using Guard = std::lock_guard<explored::Mutex>;
    static constexpr size_t none = ~size_t(0), no_object = 2;

    // The objects' words in the index are 0 and 1. 1: the object lives.
    std::array<explored::Plain<int>, 2> objects{explored::Plain<int>(1), explored::Plain<int>(1)};
    explored::Atomic<size_t> entry{0}, epoch{0}, since{none};
    explored::Mutex shared_lock{};
    std::vector<size_t> shared{};
    explored::Mutex list_lock{};
    std::vector<std::pair<size_t, size_t>> waiting{};

    void look_up() {
        const size_t word = entry.load(std::memory_order_acquire);
        RL_ASSERT(word == no_object || objects[word].get() == 1);
    }
    void look_up_with_slot() {
        const size_t number = epoch.load(explored::unless("acquire of the epoch", std::memory_order_acquire));
        since.store(number, std::memory_order_release);                //| pin.since.store(self.epoch.load(SeqCst), SeqCst);
        explored::fence_unless("fence of an announcement");
        look_up();
        const std::memory_order order = explored::unless("release of the end of a pin", std::memory_order_release);
        since.store(none, order);                                      //| pin.since.store(NONE, Release);
    }
    void look_up_without_slot() {
        const explored::Mutex::Off off("lock of pins without a slot");
        size_t number = 0;
        {
            const Guard guard(shared_lock);                            //| let mut shared = lock(&self.shared);
            const std::memory_order order = explored::unless("acquire of the epoch", std::memory_order_acquire);
            number = epoch.load(order);                                //| let since = self.epoch.load(SeqCst);
            shared.push_back(number);                                  //| shared.push(since);
        }
        look_up();
        const Guard guard(shared_lock);                                //| let mut shared = lock(&self.shared);
        shared.erase(std::find(shared.begin(), shared.end(), number)); //| shared.swap_remove(place);
    }
    size_t pinned_since() {
        size_t least = none;
        if (!explored::without("read of pins without a slot")) {
            const explored::Mutex::Off off("lock of pins without a slot");
            const Guard guard(shared_lock);
            for (const size_t pinned : shared) {                       //| let shared = lock(&self.shared).iter().copied().min().unwrap_or(NONE);
                least = std::min(least, pinned);
            }
        }
        const std::memory_order order = explored::unless("acquire of an announcement", std::memory_order_acquire);
        return std::min(least, since.load(order));                     //| self.pins.iter().map(|pin| pin.since.load(SeqCst)).fold(shared, u64::min)
    }
    // Begins an epoch. Returns the first one whose objects can't be freed.
    size_t begin_epoch() {
        const size_t begun = epoch.fetch_add(1, std::memory_order_relaxed) + 1; //| let begun = self.epoch.fetch_add(1, SeqCst) + 1;
        explored::fence_unless("fence of a new epoch");
        const size_t pinned = pinned_since();                          //| self.pinned_since().min(begun)
        return explored::without("end of the epoch that begins") ? pinned : std::min(pinned, begun);
    }
    void free_before(size_t end) {
        while (!waiting.empty() && waiting.front().first < end) {      //| let free = self.objects.partition_point(|(epoch, _)| *epoch < end);
            objects[waiting.front().second].set(0);
            waiting.erase(waiting.begin());
        }
    }
    void retire(size_t word) {
        const Guard guard(list_lock);                                  //| let mut waiting = lock(&slot.and_then(|index| self.list(index)).unwrap_or(&self.rest).0);
        explored::fence_unless("fence of a retirement");
        const size_t number = epoch.load(std::memory_order_acquire);
        waiting.emplace_back(number, word);                            //| waiting.objects.push_back((self.epoch.load(SeqCst), word));
        free_before(begin_epoch());                                    //| let end = self.begin_epoch();
    }
    void free_now() {
        const size_t end = begin_epoch();                              //| let end = self.begin_epoch();
        const Guard guard(list_lock);                                  //| self.each_list().flat_map(|mut waiting| waiting.take_free(end)).collect()
        free_before(end);
    }
    void remove() {
        const bool is_early = explored::without("removal before the retirement");
        is_early ? retire(0) : void();
        entry.exchange(1, std::memory_order_acq_rel);
        is_early ? void() : retire(0);
        entry.exchange(no_object, std::memory_order_acq_rel);
        retire(1);
    }

    void thread(unsigned index) {
        if (index == 0) {
            remove();
        } else if (index == 1) {
            look_up_with_slot();
            look_up_with_slot();
        } else {
            look_up_without_slot();
            free_now();
        }
    }
};

#endif
