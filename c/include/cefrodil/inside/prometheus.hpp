// The counts of caches in the text format of Prometheus, for cefrodil.hpp.
#ifndef CEFRODIL_INSIDE_PROMETHEUS_HPP
#define CEFRODIL_INSIDE_PROMETHEUS_HPP

#include "counts.hpp"
#include <chrono>
#include <cmath>
#include <cstdint>
#include <string>
#include <utility>
#include <vector>

namespace cefrodil {

namespace inside {

// The value of a label, as Prometheus reads it.
inline std::string label(const std::string &value) {
    std::string text;
    for (const char letter : value) {
        if (letter == '"' || letter == '\\') {
            text += '\\';
        }
        text += letter == '\n' ? "\\n" : std::string(1, letter);
    }
    return text;
}

// A number of 0 or more with nine digits behind the point, in any locale.
inline std::string decimal(std::chrono::nanoseconds billionths) {
    const std::string digits = std::to_string(1000000000 + billionths.count() % 1000000000);
    return std::to_string(billionths.count() / 1000000000) + '.' + digits.substr(1);
}

// A line of the text format of Prometheus: a number of the counts, or else a time or a rate.
struct CountsRow {
    const char *name, *type, *help;
    uint64_t Counts::*number;
    std::chrono::nanoseconds (*billionths)(const Counts &) = nullptr;

    std::string value(const Counts &counts) const { return billionths != nullptr ? decimal(billionths(counts)) : std::to_string(counts.*number); }
    // Only what a map says has these.
    bool is_of_map() const noexcept { return number == &Counts::entries || number == &Counts::capacity || number == &Counts::weight; }
};

inline constexpr CountsRow counts_rows[] = {
    {"hits_total", "counter", "Lookups that found their key.", &Counts::hits},
    {"misses_total", "counter", "Lookups of an absent key.", &Counts::misses},
    {"busy_total", "counter", "Lookups that were busy.", &Counts::busy},
    {"held_total", "counter", "Calls whose try for the turn did not win.", &Counts::held},
    {"evictions_total", "counter", "Keys that were evicted.", &Counts::evictions},
    {"evicted_by_weight_total", "counter", "Keys that a map evicted by its bound on weights.", &Counts::evicted_by_weight},
    {"evicted_by_capacity_total", "counter", "Keys that a map evicted by its bound on their number.", &Counts::evicted_by_capacity},
    {"ended_total", "counter", "Entries that a map removed because they had ended.", &Counts::ended},
    {"refusals_total", "counter", "Writes that were refused.", &Counts::refusals},
    {"given_up_total", "counter", "Calls of a map that were held or busy at each try.", &Counts::given_up},
    {"stalled_seconds", "gauge", "For how long calls of a map have given up.", &Counts::stalled},
    {"waiting_objects", "gauge", "Objects that have left a map and wait to be freed.", &Counts::waiting},
    {"waiting_weight", "gauge", "What the objects weigh that wait to be freed.", &Counts::waiting_weight},
    {"pinned_objects", "gauge", "Objects that have left a map and that pins keep.", &Counts::pinned},
    {"pinned_weight", "gauge", "What the objects weigh that pins keep.", &Counts::pinned_weight},
    {"entries", "gauge", "Entries that are there.", &Counts::entries},
    {"capacity", "gauge", "Entries that there is room for.", &Counts::capacity},
    {"weight", "gauge", "What the entries weigh.", &Counts::weight},
    {"loads_total", "counter", "Functions of find_or_compute that ran.", &Counts::loads},
    {"load_failures_total", "counter", "Those that threw or declined.", &Counts::load_failures},
    {"load_seconds_total", "counter", "How long they took together.", nullptr, [](const Counts &counts) { return counts.load_time; }},
    {"hit_rate", "gauge", "Which part of the lookups of about the last minute found their key.", nullptr,
     [](const Counts &counts) { return std::chrono::nanoseconds(std::llround(counts.hit_rate_of_last_minute * 1e9)); }}};

} // namespace inside

// The counts of some caches, each by its name, in the text format of Prometheus.
inline std::string prometheus(const std::vector<std::pair<std::string, Counts>> &caches) {
    std::string text;
    for (const inside::CountsRow &row : inside::counts_rows) {
        const std::string name = std::string("cefrodil_") + row.name;
        text += "# HELP " + name + ' ' + row.help + "\n# TYPE " + name + ' ' + row.type + '\n';
        for (const auto &[cache, counts] : caches) {
            if (row.is_of_map() && counts.capacity == 0) {
                continue;
            }
            text += name + "{cache=\"" + inside::label(cache) + "\"} " + row.value(counts) + '\n';
        }
    }
    return text;
}

} // namespace cefrodil

#endif
