//! Puts of many entries in one call, and lookups that are no use of a key.
use cefrodil::{Cache, Policy, Put, PutError, Reply, Shape, TurnError, Writing};
use std::error::Error;
use std::sync::atomic::{AtomicBool, Ordering::SeqCst};
use std::thread;
use std::time::{Duration, Instant};

// So often the turn must change hands within batches. If half of the places where it may were wrong, one of these would be seen.
const CHANGES: usize = 30;

const LONG: Duration = Duration::from_secs(60);

/// More entries than one call of the archive takes.
const MANY: usize = 70;

fn entries() -> Vec<(u64, [u64; 2])> {
    (0..MANY as u64).map(|n| (n % 60, [n, 2 * n])).collect()
}

/// The answers of puts of the entries, one after the other.
fn answers() -> Vec<Put> {
    let new = (1..=60).map(|at| Put::Stored { at, moves: 0, evicted: None });
    new.chain((61..=70).map(|at| Put::Renewed { at })).collect()
}

#[test]
fn a_holder_puts_many() -> Result<(), Box<dyn Error>> {
    // So few of its slots are in use that no key is moved.
    let mut handles = Cache::<2>::open(&Shape::for_items(10_000, 1)?, 1, 2)?;
    let mut reader = handles.remove(1);
    let mut writing = handles[0].hold()?;
    let mut told = [Err(PutError::Spent); MANY];
    writing.put_many(&entries(), &mut told);
    assert_eq!(told.into_iter().collect::<Result<Vec<_>, _>>()?, answers());
    assert_eq!(reader.get(3), Reply::Found { value: [63, 126], at: 70, since: 64 });
    writing.put_many(&[], &mut []);
    assert_eq!((writing.moment(), writing.len()), (70, 60));
    Ok(())
}

#[test]
fn a_refused_put_of_many_stops_no_other() -> Result<(), Box<dyn Error>> {
    let shape = Shape { buckets: 2, items: 8, stripes: 1, ..Shape::for_items(8, 1)? };
    let mut handles = Cache::<1>::open(&shape, 1, 1)?;
    let mut writing = handles[0].hold()?;
    let entries: Vec<(u64, [u64; 1])> = (0..20).chain(0..20).map(|key| (key, [key])).collect();
    let mut told = [Err(PutError::Spent); 40];
    writing.put_many(&entries, &mut told);
    // The two buckets are full, so twelve keys have no place. Behind these the others are put anew.
    let refused = |puts: &[Result<Put, PutError>]| puts.iter().filter(|put| **put == Err(PutError::NoPath)).count();
    let renewed = |puts: &[Result<Put, PutError>]| puts.iter().filter(|put| matches!(put, Ok(Put::Renewed { .. }))).count();
    assert_eq!((refused(&told[..20]), refused(&told[20..]), renewed(&told[20..])), (12, 12, 8));
    Ok(())
}

#[test]
#[should_panic(expected = "there must be as many answers as entries")]
fn fewer_answers_than_entries_panic() {
    let mut handles = Cache::<1>::open(&Shape::for_items(8, 1).unwrap(), 1, 1).unwrap();
    handles[0].hold().unwrap().put_many(&[(1, [10]), (2, [20])], &mut [Err(PutError::Spent)]);
}

#[test]
fn handles_put_many_and_peek() -> Result<(), Box<dyn Error>> {
    let mut handles = Cache::<2>::open(&Shape::for_items(10_000, 1)?, 1, 1)?;
    let handle = &mut handles[0];
    let mut told = [Err(TurnError::Held); MANY];
    handle.try_put_many(&entries(), &mut told);
    assert_eq!(told.into_iter().collect::<Result<Vec<_>, _>>()?, answers());
    assert_eq!(handle.try_peek(3), Ok(Reply::Found { value: [63, 126], at: 70, since: 64 }));
    assert_eq!(handle.try_peek(60), Ok(Reply::Absent { at: 70 }));
    let mut shards = Cache::<2>::open(&Shape::for_items(10_000, 4)?, 4, 1)?;
    shards[0].try_put_many(&entries(), &mut told);
    assert!(told.iter().all(Result::is_ok));
    assert_eq!((0..60).filter(|key| shards[0].try_peek(*key).is_ok_and(|reply| reply.value().is_some())).count(), 60);
    assert_eq!(shards[0].try_peek(3)?.value(), Some([63, 126]));
    Ok(())
}

// Another thread lists the entries again and again, so that it has the turn for some entries of a batch and not for others.
#[test]
fn a_held_put_of_many_stops_no_other() -> Result<(), Box<dyn Error>> {
    const ENTRIES: usize = 960;
    let mut handles = Cache::<1>::open(&Shape::for_items(4_000, 1)?, 1, 2)?;
    let (mut lists, mut puts) = (handles.remove(0), handles.remove(0));
    let (end, begin) = (AtomicBool::new(false), Instant::now());
    let (mut changes, mut wrong) = (0, 0);
    let mut last = vec![None; ENTRIES];
    thread::scope(|threads| {
        threads.spawn(|| {
            while !end.load(SeqCst) {
                let _ = lists.try_entries();
            }
        });
        for round in 0.. {
            if changes >= CHANGES || begin.elapsed() > LONG {
                break;
            }
            let entries: Vec<(u64, [u64; 1])> = (0..ENTRIES as u64).map(|key| (key, [round])).collect();
            let mut told = vec![Err(TurnError::Held); ENTRIES];
            puts.try_put_many(&entries, &mut told);
            last.iter_mut().zip(&told).filter(|(_, put)| put.is_ok()).for_each(|(last, _)| *last = Some([round]));
            wrong += last.iter().zip(0..).filter(|(last, key)| puts.get(*key).value() != **last).count();
            changes += told.windows(2).filter(|two| two[0].is_ok() != two[1].is_ok()).count();
        }
        end.store(true, SeqCst);
    });
    assert!(changes >= CHANGES, "the turn changed only {changes} times within a batch");
    assert_eq!(wrong, 0, "keys whose value is not that of the last put that was not held");
    Ok(())
}

#[test]
fn a_peek_is_no_use() -> Result<(), Box<dyn Error>> {
    // Fills a cache of three items, looks its next victim up by this call, and returns the key that another put evicts.
    let evicted_after = |policy, look: fn(&mut Writing<1>, u64) -> Reply<1>| -> Result<(u64, u64), Box<dyn Error>> {
        let mut handles = Cache::<1>::open(&Shape { policy, ..Shape::for_items(3, 1)? }, 1, 1)?;
        let mut writing = handles[0].hold()?;
        for key in 0..3 {
            writing.put(key, &[key])?;
        }
        let Put::Stored { evicted: Some(first), .. } = writing.put(3, &[3])? else { return Err("none was evicted".into()) };
        // The hand goes on with the item after it.
        let next = (first + 1) % 3;
        assert_eq!(look(&mut writing, next), Reply::Found { value: [next], at: 5, since: next + 1 });
        match writing.put(4, &[4])? {
            Put::Stored { evicted: Some(second), .. } => Ok((next, second)),
            other => Err(format!("{other:?}").into()),
        }
    };
    for policy in [Policy::ScanResistant, Policy::Clock] {
        let (next, evicted) = evicted_after(policy, |writing, key| writing.peek(key))?;
        assert_eq!(evicted, next);
        let (next, evicted) = evicted_after(policy, |writing, key| writing.get(key))?;
        assert_ne!(evicted, next);
    }
    Ok(())
}
