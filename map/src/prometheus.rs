//! The numbers of maps for Prometheus.
use crate::stats::Stats;
use std::fmt::Write;

/// Prometheus reads each number as an `f64`.
type Number = fn(&Stats) -> f64;

const ROWS: [(&str, &str, &str, Number); 26] = [
    ("hits_total", "counter", "Lookups that found a value.", |stats| stats.hits as f64),
    ("misses_total", "counter", "Lookups that found none.", |stats| stats.misses as f64),
    ("expired_total", "counter", "Misses whose value had expired.", |stats| stats.expired as f64),
    ("collided_total", "counter", "Misses that found another key's entry.", |stats| stats.collided as f64),
    ("busy_total", "counter", "Lookups that were busy.", |stats| stats.busy as f64),
    ("added_total", "counter", "Keys that were put and are new.", |stats| stats.added as f64),
    ("renewed_total", "counter", "Entries that were overwritten.", |stats| stats.renewed as f64),
    ("evictions_total", "counter", "Entries that gave way.", |stats| stats.evicted as f64),
    ("evictions_by_weight_total", "counter", "Entries that gave way to the bound on weights.", |stats| {
        stats.evicted_by_weight as f64
    }),
    ("evictions_by_capacity_total", "counter", "Entries that gave way to the capacity.", |stats| {
        stats.evicted_by_capacity as f64
    }),
    ("removed_total", "counter", "Entries that were removed.", |stats| stats.removed as f64),
    ("ended_total", "counter", "Entries that were removed since they had ended.", |stats| stats.ended as f64),
    ("loads_total", "counter", "Functions that computed a value.", |stats| stats.loads as f64),
    ("load_failures_total", "counter", "Those that failed.", |stats| stats.load_failures as f64),
    ("load_seconds_total", "counter", "How long they took.", |stats| stats.load_time.as_secs_f64()),
    ("refusals_total", "counter", "Writes that failed.", |stats| stats.refused as f64),
    ("given_up_total", "counter", "Calls that were held or busy at each try.", |stats| stats.given_up as f64),
    ("stalled_seconds", "gauge", "For how long calls have given up.", |stats| stats.stalled.as_secs() as f64),
    ("waiting_objects", "gauge", "Objects that have left and wait to be freed.", |stats| stats.waiting as f64),
    ("waiting_weight", "gauge", "What the objects weigh that wait to be freed.", |stats| stats.waiting_weight as f64),
    ("pinned_objects", "gauge", "Objects that have left and that pins keep.", |stats| stats.pinned as f64),
    ("pinned_weight", "gauge", "What the objects weigh that pins keep.", |stats| stats.pinned_weight as f64),
    ("entries", "gauge", "Entries that are there.", |stats| stats.entries as f64),
    ("capacity", "gauge", "Entries that there is room for.", |stats| stats.capacity as f64),
    ("weight", "gauge", "What the entries weigh.", |stats| stats.weight as f64),
    ("hit_rate", "gauge", "Which part of the lookups of about the last minute hit.", Stats::hit_rate_of_last_minute),
];

/// The numbers of some maps, each by its name, in the text format of Prometheus.
///
/// ```
/// use cefrodil_map::{prometheus, Map};
///
/// let ages = Map::<str, u64>::builder(100).shards(1).open()?;
/// ages.insert("ann", 41)?;
/// assert_eq!(ages.get("ann"), Some(41));
/// let text = prometheus(&[("ages", ages.stats())]);
/// assert!(text.contains("\ncefrodil_map_hits_total{cache=\"ages\"} 1\n") && text.contains("\ncefrodil_map_capacity{cache=\"ages\"} 100\n"));
/// # Ok::<(), Box<dyn std::error::Error>>(())
/// ```
#[must_use]
pub fn prometheus(maps: &[(&str, Stats)]) -> String {
    let mut text = String::new();
    for (name, kind, help, number) in ROWS {
        let _ = write!(text, "# HELP cefrodil_map_{name} {help}\n# TYPE cefrodil_map_{name} {kind}\n");
        for (map, stats) in maps {
            let label = map.replace('\\', "\\\\").replace('"', "\\\"").replace('\n', "\\n");
            let _ = writeln!(text, "cefrodil_map_{name}{{cache=\"{label}\"}} {}", number(stats));
        }
    }
    text
}
