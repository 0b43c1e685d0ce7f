//! A cache gets more handles: as many as it has to spare, also while other threads use it. Their calls are counted with the others.
use cefrodil::{Cache, Handle, MoreError, Shape};
use std::error::Error;
use std::thread;

type Tested = Result<(), Box<dyn Error>>;

fn opened(shards: u32, handles: usize) -> Result<Vec<Handle<1>>, Box<dyn Error>> {
    Ok(Cache::<1>::open(&Shape::for_items(100, shards)?, shards, handles)?)
}

// Counts only where anything is counted.
fn counted(number: u64) -> u64 {
    if cfg!(feature = "counts") {
        number
    } else {
        0
    }
}

#[test]
fn each_handle_works_as_the_others_do() -> Tested {
    for shards in [1, 4] {
        let mut first = opened(shards, 1)?.remove(0);
        first.try_put(7, &[70])?;
        let mut more = first.more(2)?;
        // The cache stays as long as one of its handles.
        drop(first);
        assert_eq!((more.len(), more[0].get(7).value(), more[0].try_len()?), (2, Some([70]), 1));
        let mut others = more[1].more(1)?;
        let mut writing = others[0].hold()?;
        assert!(more[0].try_put(8, &[80]).is_err());
        writing.put(8, &[80])?;
        drop(writing);
        assert_eq!((more[0].get(8).value(), more[1].try_moment()?), (Some([80]), 2));
    }
    Ok(())
}

#[test]
fn a_cache_has_so_many_to_spare() -> Tested {
    for (handles, spare) in [(1, 64), (960, 64), (1000, 24), (1024, 0)] {
        let mut handles = opened(1, handles)?;
        for count in [0, spare + 1, 1025, usize::MAX] {
            assert_eq!(handles[0].more(count).err(), Some(MoreError::Handles), "{count} of {spare}");
        }
        for _ in 0..spare {
            // That it is dropped gives nothing back.
            handles[0].more(1)?;
        }
        assert_eq!(handles[0].more(1).err(), Some(MoreError::Handles));
    }
    Ok(())
}

#[test]
fn a_cache_gets_more_beside_one_that_holds_and_by_it() -> Tested {
    let mut handles = opened(4, 2)?;
    let mut other = handles.remove(0);
    let mut writing = handles[0].hold()?;
    writing.put(7, &[70])?;
    for mut handle in [other.more(1)?, writing.more(1)?].into_iter().flatten() {
        assert_eq!(handle.get(7).value(), Some([70]));
    }
    writing.put(8, &[80])?;
    assert_eq!(writing.moment(), 2);
    Ok(())
}

#[test]
fn a_meter_counts_the_calls_of_handles_that_come_later() -> Tested {
    let mut handles = opened(1, 1)?;
    let meter = handles[0].meter();
    handles[0].try_put(7, &[70])?;
    let mut more = handles[0].more(2)?;
    let mut others = more[0].more(3)?;
    let mut last = handles[0].more(1)?;
    for handle in handles.iter_mut().chain(&mut more).chain(&mut others).chain(&mut last) {
        assert_eq!(handle.get(7).value(), Some([70]));
        assert_eq!(handle.meter().counts(), meter.counts());
    }
    assert_eq!(meter.counts().hits, counted(7));
    drop((handles, more, others, last));
    assert_eq!(meter.counts().hits, counted(7));
    Ok(())
}

// Takes one of the spare handles after the other until there is none, and looks a key up by each. Returns how many they were.
fn take_all(handle: &mut Handle<1>) -> u64 {
    let mut taken = 0;
    loop {
        match handle.more(1) {
            Ok(mut more) => assert_eq!(more[0].get(7).value(), Some([70])),
            Err(MoreError::Held) => continue,
            Err(why) => {
                assert_eq!(why, MoreError::Handles);
                return taken;
            }
        }
        taken += 1;
    }
}

#[test]
fn threads_take_each_spare_handle_once() -> Tested {
    for _ in 0..20 {
        let mut handles = opened(1, 4)?;
        let meter = handles[0].meter();
        handles[0].try_put(7, &[70])?;
        let taken: u64 = thread::scope(|threads| {
            let running: Vec<_> = handles.iter_mut().map(|handle| threads.spawn(|| take_all(handle))).collect();
            running.into_iter().map(|thread| thread.join().expect("a thread panicked")).sum()
        });
        assert_eq!((taken, meter.counts().hits, meter.counts().held), (64, counted(64), 0));
    }
    Ok(())
}
