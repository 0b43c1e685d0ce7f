//! The answer of `stats`.
use crate::clock::unix_time;
use crate::command::{line, text, version};
use crate::counts::Count;
use crate::listing::CLASS;
use crate::request::ERROR;
use crate::store::Store;
use nix::sys::resource::{getrusage, UsageWho};
use nix::sys::time::TimeValLike;
use std::io::Write;
use std::process;

/// Answers `stats` with this word behind it, or none.
pub fn answer(store: &Store, what: &[u8], out: &mut Vec<u8>) {
    match what {
        b"" => general(store, out),
        b"reset" => {
            store.books.counts.reset();
            line(out, "RESET");
        }
        b"settings" => settings(store, out),
        b"items" => items(store, out),
        b"slabs" => slabs(store, out),
        b"sizes" => {
            out.extend_from_slice(b"STAT sizes_status disabled\r\n");
            line(out, "END");
        }
        _ => line(out, ERROR.text),
    }
}

fn general(store: &Store, out: &mut Vec<u8>) {
    let (version, own) = (version!(), env!("CARGO_PKG_VERSION"));
    text!(out, "STAT pid {}\r\nSTAT uptime {}\r\n", process::id(), store.books.clock.uptime());
    text!(out, "STAT time {}\r\nSTAT version {version}\r\nSTAT cefrodild {own}\r\n", unix_time());
    let usage = getrusage(UsageWho::RUSAGE_SELF).expect("a process can ask for its own usage");
    let [user, system] = [usage.user_time(), usage.system_time()].map(|time| time.num_microseconds() as f64 / 1e6);
    text!(out, "STAT pointer_size 64\r\nSTAT rusage_user {user:.6}\r\nSTAT rusage_system {system:.6}\r\n");
    text!(out, "STAT max_connections {}\r\n", store.options.connections);
    text!(out, "STAT curr_connections {}\r\nSTAT threads {}\r\n", store.seats.taken(), store.options.threads);
    // Clients are always accepted. If there are too many, they are told so.
    text!(out, "STAT accepting_conns 1\r\nSTAT listen_disabled_num 0\r\n");
    text!(out, "STAT connection_structures {}\r\nSTAT buffer_bytes {}\r\n", store.seats.taken(), store.books.budget.buffers());
    for (name, sum) in store.books.counts.sums() {
        text!(out, "STAT {name} {sum}\r\n");
    }
    text!(out, "STAT stalled_seconds {}\r\n", store.stalled().as_secs());
    text!(out, "STAT bytes {}\r\nSTAT curr_items {}\r\n", store.books.budget.used(), store.index.len() as u64);
    text!(out, "STAT bytes_waiting {}\r\nSTAT bytes_limit {}\r\n", store.books.budget.waiting(), store.books.budget.limit());
    text!(out, "STAT limit_maxbytes {}\r\n", store.options.memory);
    line(out, "END");
}

/// Writes counts of the class that has all items, with the names that they have there.
fn write_counts(store: &Store, class: &str, counts: &[(&str, Count)], out: &mut Vec<u8>) {
    for (name, count) in counts {
        text!(out, "STAT {class}:{name} {}\r\n", store.books.counts.get(*count));
    }
}

/// All items are of one class.
fn items(store: &Store, out: &mut Vec<u8>) {
    let (number, class) = (store.index.len() as u64, format_args!("items:{CLASS}").to_string());
    if number > 0 {
        text!(out, "STAT {class}:number {number}\r\nSTAT {class}:age {}\r\n", age(store));
        text!(out, "STAT {class}:mem_requested {}\r\nSTAT {class}:evicted_time 0\r\n", store.books.budget.used());
        let counts = [
            ("evicted", Count::Evicted),
            ("outofmemory", Count::NoMemory),
            ("reclaimed", Count::Reclaimed),
            ("expired_unfetched", Count::ExpiredUnfetched),
            ("evicted_unfetched", Count::EvictedUnfetched),
            ("crawler_reclaimed", Count::Expired),
        ];
        write_counts(store, &class, &counts, out);
    }
    line(out, "END");
}

/// The seconds since the oldest item was stored.
fn age(store: &Store) -> u64 {
    store.oldest().map_or(0, |born| unix_time().saturating_sub(store.books.clock.unix_time_of(born)))
}

/// The class has pages of a megabyte, and chunks as large as an item is on average.
fn slabs(store: &Store, out: &mut Vec<u8>) {
    const PAGE: u64 = 1 << 20;
    let (number, used) = (store.index.len() as u64, store.books.budget.used());
    if number > 0 {
        let size = (used / number).max(1);
        let free = store.books.budget.limit().saturating_sub(used) / size;
        let class = CLASS.to_string();
        text!(out, "STAT {class}:chunk_size {size}\r\nSTAT {class}:chunks_per_page {}\r\n", (PAGE / size).max(1));
        text!(out, "STAT {class}:total_pages {}\r\nSTAT {class}:total_chunks {}\r\n", used.div_ceil(PAGE), number + free);
        text!(out, "STAT {class}:used_chunks {number}\r\nSTAT {class}:free_chunks {free}\r\nSTAT {class}:free_chunks_end 0\r\n");
        let counts = [
            ("get_hits", Count::GetHits),
            ("cmd_set", Count::Sets),
            ("delete_hits", Count::DeleteHits),
            ("incr_hits", Count::IncrHits),
            ("decr_hits", Count::DecrHits),
            ("cas_hits", Count::CasHits),
            ("cas_badval", Count::CasBadValue),
            ("touch_hits", Count::TouchHits),
        ];
        write_counts(store, &class, &counts, out);
    }
    text!(out, "STAT active_slabs {}\r\nSTAT total_malloced {used}\r\n", u64::from(number > 0));
    line(out, "END");
}

fn settings(store: &Store, out: &mut Vec<u8>) {
    text!(out, "STAT maxbytes {}\r\nSTAT maxconns {}\r\n", store.options.memory, store.options.connections);
    text!(out, "STAT item_size_max {}\r\nSTAT num_threads {}\r\n", store.options.longest, store.options.threads);
    text!(out, "STAT evictions on\r\nSTAT cas_enabled yes\r\nSTAT udpport 0\r\n");
    text!(out, "STAT verbosity {}\r\n", store.options.verbosity);
    text!(out, "STAT idle_timeout {}\r\n", store.options.idle_timeout.unwrap_or(0));
    line(out, "END");
}
