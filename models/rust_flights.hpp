// The flights of the crate `cefrodil-map`, line by line. .ci/models checks that each quoted line is still there.
//| in map/src/flight.rs
//
// A thread changes the store and removes the key, while others compute the key's value from the store. Afterwards the map has no older value, and no
// call that begins then returns one. The index is one entry, as in cxx_flights.hpp. The orders are weaker than those of the crate where no schedule
// needs more.
#ifndef RUST_FLIGHTS_HPP
#define RUST_FLIGHTS_HPP

#include "explored.hpp"
#include <algorithm>

struct RustFlights : rl::test_suite<RustFlights, 3> {
    static constexpr unsigned interruptions = 1;
    static constexpr std::array<std::string_view, 6> steps{"fence of detach", "fence of board", "order of the load",
                                                           "order of the end", "lock of the put", "lock of detach"};

    enum Outcome { running_yet, has_value, has_none };

    struct Flight {
        Outcome outcome = running_yet;
        int value = 0;
        explored::Mutex lock{};
        explored::Condition ended{};
    };
    using Guard = std::lock_guard<explored::Mutex>;

    enum { none, older, newer };

    explored::Atomic<int> store{older}, entry{none};
    // The flights of a stripe: one for each thread that may compute.
    explored::Atomic<size_t> running{0};
    explored::Mutex lock{};
    std::vector<Flight *> stripe{};
    std::array<Flight, 3> flights{};

    static std::memory_order unless(std::string_view step, std::memory_order order) {
        return explored::without(step) ? std::memory_order_relaxed : order;
    }

    // Returns the flight of another thread, or null if this one computes.
    Flight *board(Flight &own) {
        const Guard guard(lock);                          //| let mut stripe = lock(self.stripe(print));
        if (!stripe.empty()) {                            //| if let Some(flight) = stripe.iter().find(|flight| flight.print == print) {
            return stripe.front();
        }
        running.fetch_add(1, std::memory_order_relaxed);  //| self.running.fetch_add(1, SeqCst);
        stripe.push_back(&own);                           //| stripe.push(Arc::clone(&leader.flight));
        if (!explored::without("fence of board")) {
            explored::fence();                            //| fence(SeqCst);
        }
        return nullptr;
    }
    void detach() {
        if (!explored::without("fence of detach")) {
            explored::fence();                            //| fence(SeqCst);
        }
        const explored::Mutex::Off off("lock of detach");
        if (running.load(unless("order of the load", std::memory_order_acquire)) > 0) { //| if self.running.load(SeqCst) > 0 {
            const Guard guard(lock);
            stripe.clear();                               //| lock(self.stripe(print)).retain(|flight| flight.print != print);
        }
    }
    std::optional<int> wait(Flight &flight) {
        std::unique_lock<explored::Mutex> guard(flight.lock);
        flight.ended.wait(guard, [&] { return flight.outcome != running_yet; });
        return flight.outcome == has_value ? std::optional<int>(flight.value) : std::nullopt; //| Outcome::Value(value) => Some(*value),
    }
    void leave(Flight &flight) {                          //| stripe.retain(|flight| !Arc::ptr_eq(flight, &self.flight));
        stripe.erase(std::remove(stripe.begin(), stripe.end(), &flight), stripe.end());
    }
    // The leader ends with a value. `put` returns the value that the key has if that is another one.
    template <class Put> int end(Flight &flight, int value, Put put) {
        std::optional<int> other;
        {
            const explored::Mutex::Off off("lock of the put");
            const Guard guard(lock);                      //| let mut stripe = self.stripe();
            const bool is_in = std::find(stripe.begin(), stripe.end(), &flight) != stripe.end();
            other = is_in ? put() : std::nullopt;         //| let published = if self.is_in(&stripe) { put() } else { Published::Outdated(value) };
            leave(flight);                                //| self.leave(&mut stripe);
        }
        if (!other) {                                     //| if !matches!(published, Published::Other(_)) {
            const Guard guard(flight.lock);
            flight.outcome = has_value, flight.value = value; //| lock(&self.flight.state).outcome = Outcome::Value(value);
        }
        return other.value_or(value);                     //| published
    }
    // The leader is dropped.
    void drop(Flight &flight) {
        {
            const Guard guard(lock);
            leave(flight);                                //| self.leave(&mut self.stripe());
        }
        running.fetch_sub(1, unless("order of the end", std::memory_order_release)); //| self.flights.running.fetch_sub(1, SeqCst);
        {
            const Guard guard(flight.lock);               //| let mut state = lock(&self.flight.state);
            if (flight.outcome == running_yet) {          //| if state.outcome.is_running() {
                flight.outcome = has_none;                //| state.outcome = Outcome::None;
            }
        }
        flight.ended.notify_all();                        //| self.flight.ended.notify_all();
    }

    int find() const { return entry.load(std::memory_order_acquire); }
    //| in map/src/core.rs
    int get_or_insert(Flight &own) {
        std::optional<int> found;
        for (int value = find();; value = found.value_or(find())) {
            if (value != none) {                          //| if let Some(value) = found {
                return value;
            }
            if (Flight *const other = board(own)) {
                found = wait(*other);
                continue;                                 //| Some(outcome) => found = find(outcome.value()),
            }
            const int computed = compute(own);
            drop(own);
            return computed;                              //| Boarding::First(leader) => return lead(Some(&leader)),
        }
    }
    //| in map/src/compute.rs
    int compute(Flight &own) {
        if (const int value = find(); value != none) {    //| if let Some(value) = self.find(print, tries.min(LOOKS)) {
            return value;
        }
        const int made = store.load(std::memory_order_acquire); //| let value = self.core.load(make)?;
        return end(own, made, [&]() -> std::optional<int> {     //| Ok(leader.end(value, || self.fill(print, generation, value, None, tries)).value())
            const bool is_put = entry.compare_exchange(none, made, std::memory_order_acq_rel);
            return is_put ? std::nullopt : std::optional<int>(find());
        });
    }
    void remove() {
        detach();
        if (find() != none) {
            entry.exchange(none, std::memory_order_acq_rel);
        }
    }

    void thread(unsigned index) {
        if (index == 0) {
            store.store(newer, std::memory_order_release);
            remove();
            RL_ASSERT(get_or_insert(flights[0]) == newer);
        } else {
            get_or_insert(flights[index]);
        }
    }
    void after() { RL_ASSERT(find() != older); }
};

#endif
