// How threads of the crate `cefrodil-map` claim slots and give them back, line by line. .ci/models checks that each quoted line is still there.
//| in map/src/slots.rs
//
// Two threads call two maps, each of which has one slot. A slot is used by one thread at a time: also by the last call of a thread, whose claims
// are given back by then.
#ifndef RUST_SLOTS_HPP
#define RUST_SLOTS_HPP

#include "explored.hpp"

struct RustSlots : rl::test_suite<RustSlots, 2> {
    static constexpr unsigned interruptions = 2;
    static constexpr std::array<std::string_view, 6> steps{"lock of take_free", "lock of give_back", "reset of LAST",
                                                           "reset of RECENT",   "end of CLAIMS",     "ids of their own"};

    using Guard = std::lock_guard<explored::Mutex>;

    struct Slots {
        size_t id;
        explored::Plain<int> pass{0}; // of slot 0: what the thread that has claimed it uses
        explored::Mutex lock{};
        std::vector<size_t> free{0};
        explored::Atomic<size_t> free_count{1};

        explicit Slots(size_t number) : id(number) {}

        std::optional<size_t> take_free() {
            if (free_count.load(std::memory_order_relaxed) == 0) {        //| if self.free_count.load(Relaxed) == 0 {
                return std::nullopt;
            }
            const explored::Mutex::Off off("lock of take_free");
            const Guard guard(lock);                                      //| let mut free = lock(&self.free);
            std::optional<size_t> index;
            if (!free.empty()) {
                index = free.back(), free.pop_back();                     //| let index = free.pop();
            }
            free_count.store(free.size(), std::memory_order_relaxed);     //| self.free_count.store(free.len(), Relaxed);
            return index;
        }
        void give_back(size_t index) {
            const explored::Mutex::Off off("lock of give_back");
            const Guard guard(lock);                                      //| let mut free = lock(&self.free);
            free.push_back(index);                                        //| free.push(index as u16);
            free_count.store(free.size(), std::memory_order_relaxed);     //| self.free_count.store(free.len(), Relaxed);
        }
    };

    struct Claim {
        Slots *slots;
        size_t index;
    };

    // What LAST has, and each place of RECENT.
    struct Recent {
        size_t id = 0, index = 0;
    };

    // What a thread has: LAST, RECENT and CLAIMS.
    struct Thread {
        Recent last{};
        std::array<Recent, 2> recent{};
        std::vector<Claim> claims{};
        bool has_ended = false;

        std::optional<size_t> index_of(Slots &slots) {
            if (last.id == slots.id) {                                    //| let slot = if last.id == self.id { last.slot } else { self.find()? };
                return last.index;
            }
            const Recent seen = recent[slots.id % 2];                     //| let recent = RECENT.with(|recent| recent[place_of(self.id)].get());
            if (seen.id == slots.id) {                                    //| if recent.id != self.id {
                last = seen;                                              //| LAST.set(recent);
                return seen.index;                                        //| Some(recent.slot)
            }
            const std::optional<size_t> found = find(slots);
            if (found) {
                recent[slots.id % 2] = {slots.id, *found};                //| RECENT.with(|recent| recent[place_of(self.id)].set(Recent { id: self.id, slot }));
            }
            return found;
        }
        std::optional<size_t> find(Slots &slots) {
            if (has_ended) {                                              //| let index = CLAIMS.try_with(|claims| claims.find(self)).ok()??;
                return std::nullopt;
            }
            for (const Claim &claim : claims) {
                if (claim.slots->id == slots.id) {                        //| if let Some(claim) = claims.get(&slots.id) {
                    return claim.index;                                   //| return Some(claim.index);
                }
            }
            const std::optional<size_t> taken = slots.take_free();        //| let index = slots.take_free()?;
            if (taken) {
                claims.push_back({&slots, *taken});                       //| claims.insert(slots.id, Claim { index, slots: home });
            }
            return taken;
        }
        void drop() {
            has_ended = !explored::without("end of CLAIMS");
            if (!explored::without("reset of LAST")) {
                last = {};                                                //| LAST.set(Recent::NONE);
            }
            if (!explored::without("reset of RECENT")) {
                recent = {};                                              //| RECENT.with(|recent| recent.iter().for_each(|place| place.set(Recent::NONE)));
            }
            for (const Claim &claim : claims) {                           //| for claim in self.0.take().into_values() {
                claim.slots->give_back(claim.index);                      //| slots.give_back(claim.index);
            }
            claims.clear();
        }
    };

    Slots one{1}, other{explored::without("ids of their own") ? size_t(1) : size_t(2)};

    static void call(Thread &thread, Slots &slots) {
        if (thread.index_of(slots)) {
            slots.pass.set(slots.pass.get() + 1);
        }
    }
    void thread(unsigned index) {
        Thread own;
        Slots &first = index == 0 ? one : other, &second = index == 0 ? other : one;
        call(own, first);
        call(own, second);
        call(own, second);
        own.drop();
        call(own, second); // by a destructor that runs later
        call(own, first);
    }
    void after() { RL_ASSERT(one.free.size() == 1 && other.free.size() == 1); }
};

#endif
