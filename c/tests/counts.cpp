// What the calls of a cache's handles came to is counted: by each handle and by a guard, also once it has moved, holds or is closed. In threads no
// count is lost.
#include "cefrodil.hpp"
#include "must.h"
#include <chrono>
#include <string>
#include <thread>

using namespace cefrodil;

static bool are(const Counts &counts, std::array<uint64_t, 6> expected) {
    return counts.hits == expected[0] && counts.misses == expected[1] && counts.busy == expected[2] && counts.held == expected[3] &&
           counts.evictions == expected[4] && counts.refusals == expected[5];
}

static cefrodil_shape shape_of(uint32_t items, uint64_t limit, uint32_t policy = CEFRODIL_POLICY_SCAN_RESISTANT) {
    return {limit, 64, items, 1, 5, 1, CEFRODIL_MIX_FULL, policy};
}

static const uint64_t most = uint64_t(1) << 62;

// When a test gives up that waits for what threads do to each other. On a machine with much else to do that may take long.
static std::chrono::steady_clock::time_point too_late() {
    return std::chrono::steady_clock::now() + std::chrono::seconds(60);
}
static bool is_over(std::chrono::steady_clock::time_point end) { return std::chrono::steady_clock::now() >= end; }

// Each lookup of a guard and of a handle is a hit or a miss, also in calls for many keys at once.
static void lookups() {
    std::vector<Handle<1>> handles;
    Writing<1> writing;
    MUST(open(shape_of(100, most), 1, 3, handles) == Status::ok && handles[2].hold(writing) == Status::ok);
    const Meter meter = handles[1].meter();
    MUST(are(meter.counts(), {0, 0, 0, 0, 0, 0}));
    MUST(handles[0].get(1).status == Status::absent && are(meter.counts(), {0, 1, 0, 0, 0, 0}));
    MUST(writing.put(1, {10}).status == Status::ok && handles[1].get(1).status == Status::ok && are(meter.counts(), {1, 1, 0, 0, 0, 0}));
    MUST(writing.get(1).status == Status::ok && writing.get(2).status == Status::absent && are(writing.meter().counts(), {2, 2, 0, 0, 0, 0}));
    // A peek is no lookup.
    MUST(writing.peek(1).value && writing.peek(2).status == Status::absent && are(meter.counts(), {2, 2, 0, 0, 0, 0}));
    const uint64_t keys[5] = {1, 2, 1, 3, 1};
    std::array<uint64_t, 1> values[5];
    cefrodil_answer answers[5];
    MUST(handles[0].get_many(keys, 5, values, answers) == Status::ok && are(meter.counts(), {5, 4, 0, 0, 0, 0}));
    // A call that is refused as such looks nothing up.
    MUST(handles[0].close() == Status::ok && handles[0].get(1).status == Status::closed);
    MUST(handles[0].get_many(keys, 5, values, answers) == Status::closed && are(meter.counts(), {5, 4, 0, 0, 0, 0}));
    MUST(are(handles[0].meter().counts(), {0, 0, 0, 0, 0, 0}));
    Handle<1> moved = std::move(handles[1]);
    MUST(moved.get(1).status == Status::ok && are(meter.counts(), {6, 4, 0, 0, 0, 0}) && are(moved.meter().counts(), {6, 4, 0, 0, 0, 0}));
    moved = {};
    writing.end();
    MUST(handles[2].get(1).status == Status::ok && are(meter.counts(), {7, 4, 0, 0, 0, 0}) && are(handles[2].meter().counts(), {7, 4, 0, 0, 0, 0}));
    handles[2] = {};
    MUST(are(meter.counts(), {7, 4, 0, 0, 0, 0}));
}

// The hit rate is of the lookups that were not busy. Without any it is 0.
static void busy_lookups_are_no_part_of_the_rate() {
    Counts counts;
    MUST(counts.hit_rate() == 0);
    counts.busy = 4;
    MUST(counts.hit_rate() == 0);
    counts.misses = 3;
    MUST(counts.hit_rate() == 0);
    counts.hits = 1;
    MUST(counts.hit_rate() == 0.25);
}

// A guard that owns a handle of a new cache of one shard.
static Writing<1> writing_of(const cefrodil_shape &shape) {
    std::vector<Handle<1>> handles;
    Writing<1> writing;
    MUST(open(shape, 1, 1, handles) == Status::ok && writing.own(std::move(handles[0])) == Status::ok);
    return writing;
}

// A put that evicts is counted, and one that is refused. That a condition does not hold is neither.
static void writes() {
    Writing<1> writing = writing_of(shape_of(2, most)), spent = writing_of(shape_of(2, 0));
    const Meter meter = writing.meter();
    MUST(writing.put(1, {1}).status == Status::ok && writing.put(2, {2}).status == Status::ok && writing.put(1, {3}).renewed);
    MUST(writing.put_if(1, 9, {4}).status == Status::changed && writing.put_if(7, 9, {4}).status == Status::absent);
    MUST(writing.put_if_absent(1, {4}).status == Status::present && writing.remove(7).status == Status::absent);
    MUST(writing.swap(2, {5}).old && are(meter.counts(), {0, 0, 0, 0, 0, 0}));
    MUST(writing.put(3, {6}).evicted && are(meter.counts(), {0, 0, 0, 0, 1, 0}));
    MUST(writing.put_if_absent(4, {7}).evicted && writing.swap(5, {8}).evicted && are(meter.counts(), {0, 0, 0, 0, 3, 0}));
    MUST(spent.put(1, {1}).status == Status::spent && spent.put_if(1, 1, {1}).status == Status::spent);
    MUST(spent.put_if_absent(1, {1}).status == Status::spent && spent.remove(1).status == Status::spent);
    MUST(spent.swap(1, {1}).status == Status::spent && spent.swap_if(1, 1, {1}).status == Status::spent && spent.take(1).status == Status::spent);
    MUST(spent.evict().status == Status::spent && writing.evict().evicted && are(spent.meter().counts(), {0, 0, 0, 0, 0, 8}));
    MUST(are(meter.counts(), {0, 0, 0, 0, 3, 0}));
}

// Both buckets of nine keys are the same two, and no key may move.
static void no_path() {
    Writing<1> writing = writing_of({most, 1024, 16, 1, 0, 2, CEFRODIL_MIX_NONE, CEFRODIL_POLICY_SCAN_RESISTANT});
    for (uint64_t key = 0; key < 9; key++) {
        MUST(writing.put(1024 * key, {0}).status == (key < 8 ? Status::ok : Status::no_path));
    }
    MUST(are(writing.meter().counts(), {0, 0, 0, 0, 0, 1}));
}

// One thread looks the two keys up, so that the one item stays recent, while another puts them by turns.
static void all_recent(uint32_t policy) {
    std::vector<Handle<1>> handles;
    Writing<1> writing;
    MUST(open(shape_of(1, most, policy), 1, 2, handles) == Status::ok && handles[1].hold(writing) == Status::ok);
    std::atomic<bool> done{false};
    std::thread looking([&] {
        for (uint64_t n = 0; !done; n++) {
            (void)handles[0].get(n % 2);
        }
    });
    uint64_t refused = 0;
    const auto end = too_late();
    for (uint64_t n = 0; refused < 3 && (n % 1024 != 0 || !is_over(end)); n++) {
        refused += writing.put(n % 2, {n}).status == Status::all_recent;
    }
    done = true;
    looking.join();
    MUST(refused == 3 && writing.meter().counts().refusals == refused);
}

// The cache of entries counts, and continues counting by a guard, which takes its handle's counts along and brings them back.
static void holders() {
    std::vector<Handle<1>> handles;
    std::vector<Status> statuses;
    Writing<1> writing;
    MUST(open_with(shape_of(2, most), 1, 2, {1, 1, 2, 2}, handles, statuses) == Status::ok);
    const Meter meter = handles[0].meter();
    MUST(handles[0].try_put(3, {3}).evicted && are(handles[1].meter().counts(), {0, 0, 0, 0, 1, 0}));
    MUST(handles[1].put_within(2, 4, {4}).evicted && handles[0].get_or_turn(4).status == Status::ok && are(meter.counts(), {1, 0, 0, 0, 2, 0}));
    MUST(handles[0].hold(writing) == Status::ok && are(handles[0].meter().counts(), {0, 0, 0, 0, 0, 0}));
    MUST(writing.put(5, {5}).evicted && writing.get(9).status == Status::absent && are(writing.meter().counts(), {1, 1, 0, 0, 3, 0}));
    MUST(handles[1].try_put(6, {6}).status == Status::held && are(meter.counts(), {1, 1, 0, 1, 3, 0}));
    Writing<1> another;
    uint64_t moment = 0;
    MUST(handles[1].hold(another) == Status::held && handles[1].try_moment(moment) == Status::held && are(meter.counts(), {1, 1, 0, 3, 3, 0}));
    MUST(are(another.meter().counts(), {0, 0, 0, 0, 0, 0}));
    // Again and again.
    for (int round = 0; round < 20; round++) {
        writing.end();
        MUST(handles[0].get(9).status == Status::absent && another.own(std::move(handles[1])) == Status::ok);
        MUST(another.get(9).status == Status::absent);
        handles[1] = another.disown();
        MUST(handles[0].hold(writing) == Status::ok && writing.get(9).status == Status::absent);
    }
    MUST(are(meter.counts(), {1, 61, 0, 3, 3, 0}) && are(writing.meter().counts(), {1, 61, 0, 3, 3, 0}));
}

// Handles that close at once in threads keep their counts. ThreadSanitizer sees whether they do so one after the other.
static void closed_at_once() {
    std::vector<Handle<1>> handles;
    MUST(open(shape_of(2, most), 1, 8, handles) == Status::ok);
    const Meter meter = handles[0].meter();
    std::vector<std::thread> threads;
    for (Handle<1> &handle : handles) {
        threads.emplace_back([&handle] {
            MUST(handle.get(9).status == Status::absent);
            handle = {};
        });
    }
    for (std::thread &thread : threads) {
        thread.join();
    }
    MUST(are(meter.counts(), {0, 8, 0, 0, 0, 0}));
}

// A batch that is refused as such has put nothing, so whatever its answers say is not counted.
static void refused_batches() {
    std::vector<Handle<1>> handles;
    Writing<1> writing;
    MUST(open(shape_of(2, most), 1, 2, handles) == Status::ok && handles[1].hold(writing) == Status::ok);
    const uint64_t keys[2] = {1, 2};
    const std::array<uint64_t, 1> values[2] = {{1}, {2}};
    cefrodil_put_answer answers[2]{};
    for (cefrodil_put_answer &answer : answers) {
        answer.status = CEFRODIL_SPENT, answer.reply.put = CEFRODIL_PUT_EVICTED;
    }
    MUST(cefrodil_close(writing.raw()) == CEFRODIL_OK && writing.put_many(keys, 2, values, answers) == Status::closed);
    MUST(are(handles[0].meter().counts(), {0, 0, 0, 0, 0, 0}));
    // So it is of lookups.
    std::array<uint64_t, 1> found[2];
    cefrodil_answer looked[2]{};
    looked[0].status = looked[1].status = CEFRODIL_ABSENT;
    const Meter meter = handles[0].meter();
    MUST(cefrodil_close(handles[0].raw()) == CEFRODIL_OK && handles[0].get_many(keys, 2, found, looked) == Status::closed);
    MUST(are(meter.counts(), {0, 0, 0, 0, 0, 0}));
}

static void add(Counts &to, const Counts &more) {
    to.hits += more.hits;
    to.misses += more.misses;
    to.busy += more.busy;
    to.held += more.held;
    to.evictions += more.evictions;
    to.refusals += more.refusals;
}

// What a thread gets as answers.
struct Told {
    Counts counts{};
    template <size_t Words> void looked(const Answer<Words> &answer) {
        counts.hits += answer.status == Status::ok;
        counts.misses += answer.status == Status::absent;
        counts.busy += answer.status == Status::busy;
    }
    template <class Answer> void wrote(const Answer &answer) {
        counts.held += answer.status == Status::held;
        counts.evictions += answer.evicted.has_value();
        // Lookups of the others may mark each key while the hand goes round.
        counts.refusals += answer.status == Status::all_recent;
    }
    // An eviction that is not part of a put is not counted.
    void evicted(Status status) {
        counts.held += status == Status::held;
        counts.refusals += status == Status::all_recent;
    }
    void listed(Status status) { counts.held += status == Status::held; }
};

// Works until some thread was held, and a while in any case.
static void work(Handle<1> &handle, Told &told, std::atomic<bool> &is_held) {
    std::vector<uint64_t> list;
    const auto end = too_late();
    for (uint64_t n = 0; n < 1000 || (!is_held && !is_over(end)); n++) {
        const uint64_t key = n * 7 % 11;
        uint64_t number;
        told.looked(handle.get(key));
        told.looked(handle.get_or_turn(key + 1));
        told.wrote(handle.try_put(key, {n}));
        told.wrote(handle.put_within(2, key + 2, {n}));
        told.wrote(handle.try_put_if(key, n, {n}));
        told.wrote(handle.try_put_if_absent(key + 4, {n}));
        told.wrote(handle.try_swap(key + 3, {n}));
        told.wrote(handle.try_swap_if(key, n, {n}));
        told.wrote(handle.try_take(key));
        told.wrote(handle.try_take_if(key, n));
        told.evicted(handle.try_evict(key).status);
        told.listed(handle.try_peek(key).status);
        told.wrote(handle.try_remove(key + 5));
        told.listed(handle.try_len(number));
        told.listed(handle.try_moment(number));
        told.listed(handle.try_entries(list));
        told.listed(handle.try_stamped_entries(list));
        if (told.counts.held != 0) {
            is_held = true;
        }
    }
}

// Threads work by handles, and one reads the counts meanwhile. In the end they match the answers that the threads got.
static void threads(const cefrodil_shape &shape, uint32_t shards) {
    std::vector<Handle<1>> handles;
    MUST(open(shape, shards, 4, handles) == Status::ok);
    const Meter meter = handles[0].meter();
    std::atomic<bool> is_held{false};
    std::vector<Told> told(handles.size());
    std::vector<std::thread> running;
    for (size_t i = 0; i < handles.size(); i++) {
        running.emplace_back([&handles, &told, &is_held, i] { work(handles[i], told[i], is_held); });
    }
    uint64_t before = 0;
    for (int n = 0; n < 1000; n++) {
        const uint64_t now = meter.counts().misses;
        MUST(before <= now);
        before = now;
    }
    Counts all;
    for (size_t i = 0; i < handles.size(); i++) {
        running[i].join();
        add(all, told[i].counts);
    }
    MUST(are(meter.counts(), {all.hits, all.misses, all.busy, all.held, all.evictions, all.refusals}));
    MUST(all.hits != 0 && all.misses != 0 && all.evictions != 0 && all.held != 0);
}

static void printed() {
    const std::string expected = "# HELP cefrodil_hits_total Lookups that found their key.\n# TYPE cefrodil_hits_total counter\n"
                                 "cefrodil_hits_total{cache=\"names\"} 1\ncefrodil_hits_total{cache=\"a\\\"b\\\\c\\nd\"} 18446744073709551615\n"
                                 "# HELP cefrodil_misses_total Lookups of an absent key.\n# TYPE cefrodil_misses_total counter\n"
                                 "cefrodil_misses_total{cache=\"names\"} 2\ncefrodil_misses_total{cache=\"a\\\"b\\\\c\\nd\"} 0\n"
                                 "# HELP cefrodil_busy_total Lookups that were busy.\n# TYPE cefrodil_busy_total counter\n"
                                 "cefrodil_busy_total{cache=\"names\"} 3\ncefrodil_busy_total{cache=\"a\\\"b\\\\c\\nd\"} 0\n"
                                 "# HELP cefrodil_held_total Calls whose try for the turn did not win.\n# TYPE cefrodil_held_total counter\n"
                                 "cefrodil_held_total{cache=\"names\"} 4\ncefrodil_held_total{cache=\"a\\\"b\\\\c\\nd\"} 0\n"
                                 "# HELP cefrodil_evictions_total Keys that were evicted.\n# TYPE cefrodil_evictions_total counter\n"
                                 "cefrodil_evictions_total{cache=\"names\"} 5\ncefrodil_evictions_total{cache=\"a\\\"b\\\\c\\nd\"} 0\n"
                                 "# HELP cefrodil_evicted_by_weight_total Keys that a map evicted by its bound on weights.\n"
                                 "# TYPE cefrodil_evicted_by_weight_total counter\n"
                                 "cefrodil_evicted_by_weight_total{cache=\"names\"} 14\n"
                                 "cefrodil_evicted_by_weight_total{cache=\"a\\\"b\\\\c\\nd\"} 0\n"
                                 "# HELP cefrodil_evicted_by_capacity_total Keys that a map evicted by its bound on their number.\n"
                                 "# TYPE cefrodil_evicted_by_capacity_total counter\n"
                                 "cefrodil_evicted_by_capacity_total{cache=\"names\"} 15\n"
                                 "cefrodil_evicted_by_capacity_total{cache=\"a\\\"b\\\\c\\nd\"} 0\n"
                                 "# HELP cefrodil_ended_total Entries that a map removed because they had ended.\n# TYPE cefrodil_ended_total counter\n"
                                 "cefrodil_ended_total{cache=\"names\"} 16\ncefrodil_ended_total{cache=\"a\\\"b\\\\c\\nd\"} 0\n"
                                 "# HELP cefrodil_refusals_total Writes that were refused.\n# TYPE cefrodil_refusals_total counter\n"
                                 "cefrodil_refusals_total{cache=\"names\"} 6\ncefrodil_refusals_total{cache=\"a\\\"b\\\\c\\nd\"} 0\n"
                                 "# HELP cefrodil_given_up_total Calls of a map that were held or busy at each try.\n"
                                 "# TYPE cefrodil_given_up_total counter\n"
                                 "cefrodil_given_up_total{cache=\"names\"} 7\ncefrodil_given_up_total{cache=\"a\\\"b\\\\c\\nd\"} 0\n"
                                 "# HELP cefrodil_stalled_seconds For how long calls of a map have given up.\n"
                                 "# TYPE cefrodil_stalled_seconds gauge\n"
                                 "cefrodil_stalled_seconds{cache=\"names\"} 8\ncefrodil_stalled_seconds{cache=\"a\\\"b\\\\c\\nd\"} 0\n"
                                 "# HELP cefrodil_waiting_objects Objects that have left a map and wait to be freed.\n"
                                 "# TYPE cefrodil_waiting_objects gauge\n"
                                 "cefrodil_waiting_objects{cache=\"names\"} 9\ncefrodil_waiting_objects{cache=\"a\\\"b\\\\c\\nd\"} 0\n"
                                 "# HELP cefrodil_waiting_weight What the objects weigh that wait to be freed.\n"
                                 "# TYPE cefrodil_waiting_weight gauge\n"
                                 "cefrodil_waiting_weight{cache=\"names\"} 10\ncefrodil_waiting_weight{cache=\"a\\\"b\\\\c\\nd\"} 0\n"
                                 "# HELP cefrodil_pinned_objects Objects that have left a map and that pins keep.\n# TYPE cefrodil_pinned_objects gauge\n"
                                 "cefrodil_pinned_objects{cache=\"names\"} 20\ncefrodil_pinned_objects{cache=\"a\\\"b\\\\c\\nd\"} 0\n"
                                 "# HELP cefrodil_pinned_weight What the objects weigh that pins keep.\n# TYPE cefrodil_pinned_weight gauge\n"
                                 "cefrodil_pinned_weight{cache=\"names\"} 21\ncefrodil_pinned_weight{cache=\"a\\\"b\\\\c\\nd\"} 0\n"
                                 "# HELP cefrodil_entries Entries that are there.\n# TYPE cefrodil_entries gauge\n"
                                 "cefrodil_entries{cache=\"names\"} 11\n"
                                 "# HELP cefrodil_capacity Entries that there is room for.\n# TYPE cefrodil_capacity gauge\n"
                                 "cefrodil_capacity{cache=\"names\"} 12\n"
                                 "# HELP cefrodil_weight What the entries weigh.\n# TYPE cefrodil_weight gauge\n"
                                 "cefrodil_weight{cache=\"names\"} 13\n"
                                 "# HELP cefrodil_loads_total Functions of find_or_compute that ran.\n# TYPE cefrodil_loads_total counter\n"
                                 "cefrodil_loads_total{cache=\"names\"} 17\ncefrodil_loads_total{cache=\"a\\\"b\\\\c\\nd\"} 0\n"
                                 "# HELP cefrodil_load_failures_total Those that threw or declined.\n# TYPE cefrodil_load_failures_total counter\n"
                                 "cefrodil_load_failures_total{cache=\"names\"} 18\ncefrodil_load_failures_total{cache=\"a\\\"b\\\\c\\nd\"} 0\n"
                                 "# HELP cefrodil_load_seconds_total How long they took together.\n# TYPE cefrodil_load_seconds_total counter\n"
                                 "cefrodil_load_seconds_total{cache=\"names\"} 19.000000020\n"
                                 "cefrodil_load_seconds_total{cache=\"a\\\"b\\\\c\\nd\"} 0.000000000\n"
                                 "# HELP cefrodil_hit_rate Which part of the lookups of about the last minute found their key.\n"
                                 "# TYPE cefrodil_hit_rate gauge\n"
                                 "cefrodil_hit_rate{cache=\"names\"} 0.250000000\ncefrodil_hit_rate{cache=\"a\\\"b\\\\c\\nd\"} 1.000000000\n";
    Counts most_hits;
    most_hits.hits = UINT64_MAX, most_hits.hit_rate_of_last_minute = 1;
    const std::chrono::nanoseconds load_time(19000000020);
    const Counts others{1, 2, 3, 4, 5, 6, 7, 8, 9, 10, 11, 12, 13, 14, 15, 16, 17, 18, load_time, 0.25, 20, 21};
    MUST(prometheus({{"names", others}, {"a\"b\\c\nd", most_hits}}) == expected);
}

// The rate is that of the lookups since the sums noted last before a minute ago.
static void last_minute() {
    const inside::RecentLookups::Time begin{};
    const auto at = [&](int second) { return begin + std::chrono::seconds(second); };
    inside::RecentLookups rates(begin);
    MUST(!rates.is_due(at(3)) && rates.is_due(at(4)) && rates.rate(at(1), 0, 0) == 0 && rates.rate(at(2), 1, 3) == 0.25);
    // Ten lookups a second: at first all of them miss, and after an hour all of them hit. Somebody asks each second.
    inside::RecentLookups each(begin);
    for (uint64_t second = 1; second <= 3600; second++) {
        MUST(each.rate(at(int(second)), 0, 10 * second) == 0);
    }
    for (uint64_t second = 1; second <= 200; second++) {
        const double rate = each.rate(at(int(3600 + second)), 10 * second, 36000);
        MUST(second < 60 ? rate >= double(second) / 64 && rate <= double(second) / 60 : rate >= 60.0 / 64);
        MUST(second < 64 || rate == 1);
    }
    // Somebody asks twice: of the lookups between the two, however long that was.
    inside::RecentLookups twice(begin);
    MUST(twice.rate(at(600), 10, 0) == 1 && twice.rate(at(1200), 10, 10) == 0 && twice.rate(at(1230), 30, 10) == 2.0 / 3);
}

// A thread frees what another one has retired, and so counts fewer than none. While only its numbers are there, no object waits.
static void no_fewer_than_no_objects_wait() {
    inside::LineGroup group(1);
    group.front() = std::vector<inside::Line>(2);
    std::vector<inside::Line> &of_handles = group.front();
    inside::Lines lines;
    lines.add(std::move(group));
    of_handles[0].add(inside::waiting, uint64_t(0) - 1);
    MUST(lines.sum().waiting == 0);
    of_handles[1].add(inside::waiting, 3);
    MUST(lines.sum().waiting == 2);
}

int main() {
    last_minute();
    no_fewer_than_no_objects_wait();
    busy_lookups_are_no_part_of_the_rate();
    lookups();
    writes();
    no_path();
    all_recent(CEFRODIL_POLICY_SCAN_RESISTANT);
    all_recent(CEFRODIL_POLICY_CLOCK);
    holders();
    closed_at_once();
    refused_batches();
    threads(shape_of(8, most), 1);
    threads(shape_of(3, most), 2);
    printed();
    return outcome("counts");
}
