//! What the calls of a cache's handles came to is counted: by a handle that holds, too, and also once it is dropped. In threads no count is
//! lost. Without the feature `counts` each count is 0.
use cefrodil::{
    prometheus, Cache, Counts, Evict, EvictError, Handle, MayBeHeld, Meter, Mix, Policy, Put, PutError, PutIfAbsentError,
    PutIfError, Reply, Shape, Spent, TurnError,
};
use std::error::Error;
use std::sync::atomic::{AtomicBool, Ordering};
use std::thread;
use std::time::{Duration, Instant};

type Tested = Result<(), Box<dyn Error>>;

const SMALL: Shape = Shape {
    limit: 1 << 62,
    buckets: 64,
    items: 2,
    stripes: 1,
    depth: 5,
    tries: 1,
    mix: Mix::Full,
    policy: Policy::ScanResistant,
};

// When a test gives up that waits for what threads do to each other. On a machine with much else to do that may take long.
const LONG: Duration = Duration::from_secs(60);

fn numbers(counts: Counts) -> [u64; 6] {
    [counts.hits, counts.misses, counts.busy, counts.held, counts.evictions, counts.refusals]
}

#[track_caller]
fn counted(meter: &Meter, expected: [u64; 6]) {
    assert_eq!(numbers(meter.counts()), if cfg!(feature = "counts") { expected } else { [0; 6] });
}

#[test]
fn each_lookup_is_counted() -> Tested {
    let mut readers = Cache::<1>::open(&Shape::for_items(100, 1)?, 1, 3)?;
    let mut writing = readers.pop().ok_or("no handle")?.into_writing()?;
    let meter = readers[1].meter();
    counted(&meter, [0; 6]);
    assert_eq!(readers[0].get(1), Reply::Absent { at: 0 });
    counted(&meter, [0, 1, 0, 0, 0, 0]);
    writing.put(1, &[10])?;
    assert_eq!((readers[1].get(1).value(), writing.get(1).value(), writing.get(2).value()), (Some([10]), Some([10]), None));
    counted(&meter, [2, 2, 0, 0, 0, 0]);
    counted(&writing.meter(), [2, 2, 0, 0, 0, 0]);
    let mut replies = [Reply::Busy; 40];
    readers[0].get_many(&[1; 40], &mut replies);
    readers[0].get_many(&[1, 2, 3], &mut replies[..3]);
    readers[0].get_many(&[], &mut []);
    counted(&meter, [43, 4, 0, 0, 0, 0]);
    drop((writing, readers));
    counted(&meter.clone(), [43, 4, 0, 0, 0, 0]);
    Ok(())
}

#[test]
fn evictions_and_refusals_are_counted() -> Tested {
    let mut handles = Cache::<1>::open(&SMALL, 1, 1)?;
    let mut writing = handles[0].hold()?;
    let meter = writing.meter();
    writing.put(1, &[1])?;
    writing.put(2, &[2])?;
    assert!(matches!(writing.put(1, &[3])?, Put::Renewed { .. }));
    assert!(matches!(writing.put_if(1, 9, &[4]), Err(PutIfError::Changed { .. })));
    assert!(writing.put_if(7, 9, &[4]).is_err() && writing.put_if_absent(1, &[4]).is_err() && writing.remove(7).is_ok());
    assert!(writing.swap(2, &[5])?.old.is_some());
    counted(&meter, [0; 6]);
    writing.put(3, &[6])?;
    counted(&meter, [0, 0, 0, 0, 1, 0]);
    writing.put_if_absent(4, &[7])?;
    writing.swap(5, &[8])?;
    counted(&meter, [0, 0, 0, 0, 3, 0]);
    assert!(matches!(writing.evict(0)?, Evict::Evicted { .. }));
    counted(&meter, [0, 0, 0, 0, 3, 0]);
    let mut handles = Cache::<1>::open(&Shape { limit: 0, ..SMALL }, 1, 1)?;
    let mut spent = handles[0].hold()?;
    assert_eq!((spent.put(1, &[1]), spent.put_if(1, 1, &[1])), (Err(PutError::Spent), Err(PutIfError::Spent)));
    assert!(spent.put_if_absent(1, &[1]).is_err() && spent.remove(1) == Err(Spent) && spent.swap(1, &[1]).is_err());
    assert!(spent.swap_if(1, 1, &[1]).is_err() && spent.take(1).is_err() && spent.evict(1) == Err(EvictError::Spent));
    counted(&spent.meter(), [0, 0, 0, 0, 0, 8]);
    // Both buckets of nine keys are the same two, and no key may move.
    let crowded = Shape { buckets: 1024, items: 16, depth: 0, mix: Mix::None, ..SMALL };
    let mut handles = Cache::<1>::open(&crowded, 1, 1)?;
    let mut writing = handles[0].hold()?;
    assert_eq!((0..9).filter(|key| writing.put(1024 * key, &[0]) == Err(PutError::NoPath)).count(), 1);
    counted(&writing.meter(), [0, 0, 0, 0, 0, 1]);
    Ok(())
}

// One thread looks the two keys up, so that the one item stays recent, while another puts them by turns.
#[test]
fn a_put_that_finds_all_recent_is_counted() -> Tested {
    finds_all_recent(Policy::ScanResistant)?;
    finds_all_recent(Policy::Clock)
}

fn finds_all_recent(policy: Policy) -> Tested {
    let mut readers = Cache::<1>::open(&Shape { items: 1, policy, ..SMALL }, 1, 2)?;
    let mut writing = readers.pop().expect("there are two").into_writing()?;
    let (done, mut refused) = (AtomicBool::new(false), 0);
    thread::scope(|threads| {
        threads.spawn(|| {
            while !done.load(Ordering::Relaxed) {
                let _ = (readers[0].get(0), readers[0].get(1));
            }
        });
        let begin = Instant::now();
        for n in 0.. {
            refused += u64::from(writing.put(n % 2, &[n]) == Err(PutError::AllRecent));
            if refused == 3 || n % 1024 == 0 && begin.elapsed() > LONG {
                break;
            }
        }
        done.store(true, Ordering::Relaxed);
    });
    assert_eq!(refused, 3);
    assert_eq!(writing.meter().counts().refusals, if cfg!(feature = "counts") { 3 } else { 0 });
    Ok(())
}

#[test]
fn a_handle_counts_on_when_it_holds() -> Tested {
    let mut opened = Cache::<1>::open_with(&SMALL, 1, 2, &[(1, [1]), (2, [2])])?;
    let [one, other] = &mut opened.handles[..] else { unreachable!() };
    let meter = one.meter();
    one.try_put(3, &[3])?;
    counted(&meter, [0, 0, 0, 0, 1, 0]);
    let mut writing = one.hold()?;
    assert!(other.hold().is_err() && other.try_moment().is_err());
    writing.put(4, &[4])?;
    assert_eq!((writing.get(4).value(), other.get(9).value()), (Some([4]), None));
    counted(&writing.meter(), [1, 1, 0, 2, 2, 0]);
    drop(writing);
    let mut writing = opened.handles.remove(0).into_writing()?;
    writing.put(5, &[5])?;
    let mut one = writing.into_handle();
    assert_eq!((one.get_or_turn(5).value(), opened.handles[0].get(9).value()), (Some([5]), None));
    counted(&meter, [2, 2, 0, 2, 3, 0]);
    // Again and again.
    for _ in 0..20 {
        assert_eq!(one.hold()?.get(9).value(), None);
    }
    counted(&meter, [2, 22, 0, 2, 3, 0]);
    Ok(())
}

// What a thread gets as answers.
#[derive(Default)]
struct Told([u64; 6]);

impl Told {
    fn looked(&mut self, reply: Reply<1>) {
        match reply {
            Reply::Found { .. } => self.0[0] += 1,
            Reply::Absent { .. } => self.0[1] += 1,
            Reply::Busy => self.0[2] += 1,
        }
    }

    fn put(&mut self, put: Result<Put, TurnError<PutError>>) {
        self.0[4] += u64::from(matches!(put, Ok(Put::Stored { evicted: Some(_), .. })));
        self.0[5] += u64::from(matches!(put, Err(TurnError::Call(_))));
        self.tried(put);
    }

    fn put_if_absent(&mut self, put: Result<Put, TurnError<PutIfAbsentError>>) {
        match put {
            Ok(put) => self.put(Ok(put)),
            Err(TurnError::Held) => self.put(Err(TurnError::Held)),
            Err(TurnError::Call(PutIfAbsentError::Put(why))) => self.put(Err(TurnError::Call(why))),
            // A key that is there is no refusal.
            Err(TurnError::Call(_)) => {}
        }
    }

    fn tried<T, E: MayBeHeld>(&mut self, tried: Result<T, E>) {
        self.0[3] += u64::from(tried.is_err_and(|why| why.is_held()));
    }
}

// Works until some thread was held, and a while in any case.
fn work(handle: &mut Handle<1>, is_held: &AtomicBool) -> Told {
    let mut told = Told::default();
    let mut replies = [Reply::Busy; 3];
    let begin = Instant::now();
    for n in 0.. {
        if n >= 1000 && (is_held.load(Ordering::Relaxed) || begin.elapsed() > LONG) {
            break;
        }
        let key = n * 7 % 11;
        told.looked(handle.get(key));
        told.looked(handle.get_or_turn(key + 1));
        handle.get_many(&[key, key + 1, key + 2], &mut replies);
        replies.iter().for_each(|reply| told.looked(*reply));
        told.put(handle.try_put(key, &[n]));
        told.put(handle.put_within(2, key + 2, &[n]));
        told.tried(handle.try_put_if(key, n, &[n]));
        told.put_if_absent(handle.try_put_if_absent(key + 4, &[n]));
        told.put(handle.try_swap(key + 3, &[n]).map(|swapped| swapped.put));
        told.tried(handle.try_swap_if(key, n, &[n]));
        told.tried(handle.try_take(key));
        told.tried(handle.try_remove(key + 5));
        told.tried(handle.try_peek(key));
        let mut puts = [Err(TurnError::Held); 2];
        handle.try_put_many(&[(key, [n]), (key + 1, [n])], &mut puts);
        puts.into_iter().for_each(|put| told.put(put));
        told.tried(handle.try_len());
        told.tried(handle.try_entries());
        told.tried(handle.try_moment());
        is_held.fetch_or(told.0[3] != 0, Ordering::Relaxed);
    }
    told
}

// Threads work by handles, and one reads the counts meanwhile. In the end they match the answers that the threads got.
fn threads_work(handles: Vec<Handle<1>>) {
    let meter = handles[0].meter();
    let (mut all, mut misses, is_held) = ([0; 6], 0, &AtomicBool::new(false));
    thread::scope(|threads| {
        let running: Vec<_> = handles.into_iter().map(|mut handle| threads.spawn(move || work(&mut handle, is_held))).collect();
        while running.iter().any(|thread| !thread.is_finished()) {
            let now = meter.counts().misses;
            assert!(misses <= now);
            misses = now;
            thread::yield_now();
        }
        for thread in running {
            let told = thread.join().expect("a thread panicked");
            all.iter_mut().zip(told.0).for_each(|(all, told)| *all += told);
        }
    });
    counted(&meter, all);
    assert!(all[0] != 0 && all[1] != 0 && all[3] != 0 && all[4] != 0);
}

#[test]
fn no_count_is_lost() -> Tested {
    threads_work(Cache::<1>::open(&Shape { items: 8, ..SMALL }, 1, 4)?);
    threads_work(Cache::<1>::open(&Shape { items: 3, ..SMALL }, 2, 4)?);
    Ok(())
}

#[test]
fn counts_are_printed() -> Tested {
    let mut counts = Counts::default();
    (counts.hits, counts.misses, counts.busy) = (1, 2, 3);
    (counts.held, counts.evictions, counts.refusals) = (4, 5, u64::MAX);
    let expected = r#"# HELP cefrodil_hits_total Lookups that found their key.
# TYPE cefrodil_hits_total counter
cefrodil_hits_total{cache="names"} 1
cefrodil_hits_total{cache="a\"b\\c\nd"} 0
# HELP cefrodil_misses_total Lookups of an absent key.
# TYPE cefrodil_misses_total counter
cefrodil_misses_total{cache="names"} 2
cefrodil_misses_total{cache="a\"b\\c\nd"} 0
# HELP cefrodil_busy_total Lookups that were busy.
# TYPE cefrodil_busy_total counter
cefrodil_busy_total{cache="names"} 3
cefrodil_busy_total{cache="a\"b\\c\nd"} 0
# HELP cefrodil_held_total Calls whose try for the turn did not win.
# TYPE cefrodil_held_total counter
cefrodil_held_total{cache="names"} 4
cefrodil_held_total{cache="a\"b\\c\nd"} 0
# HELP cefrodil_evictions_total Puts that evicted another key.
# TYPE cefrodil_evictions_total counter
cefrodil_evictions_total{cache="names"} 5
cefrodil_evictions_total{cache="a\"b\\c\nd"} 0
# HELP cefrodil_refusals_total Writes that were refused.
# TYPE cefrodil_refusals_total counter
cefrodil_refusals_total{cache="names"} 18446744073709551615
cefrodil_refusals_total{cache="a\"b\\c\nd"} 0
"#;
    assert_eq!(prometheus(&[("names", counts), ("a\"b\\c\nd", Counts::default())]), expected);
    assert_eq!(prometheus(&[]).lines().count(), 12);
    let handles = Cache::<1>::open(&SMALL, 1, 1)?;
    assert_eq!(format!("{:?}", handles[0].meter()), "Meter { .. }");
    Ok(())
}
