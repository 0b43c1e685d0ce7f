//! A log has a line for each change and each answer. Its answers are those of a plain map, which is changed as the log says.
use cefrodil::{AuditLog, Cache, Evict, Handle, Removal, Reply, Shape, TurnError};
use std::collections::BTreeMap;
use std::error::Error;
use std::io;
use std::thread;

type Tested = Result<(), Box<dyn Error>>;

fn text<const WORDS: usize>(log: AuditLog<WORDS, Vec<u8>>) -> Result<String, Box<dyn Error>> {
    Ok(String::from_utf8(log.into_inner())?)
}

#[test]
fn each_answer_has_its_line() -> Tested {
    let mut handles = Cache::<2>::open(&Shape { items: 2, ..Shape::for_items(100, 1)? }, 1, 2)?;
    let mut reader = handles.remove(1);
    let mut writing = handles[0].hold()?;
    let mut log = AuditLog::new(Vec::new())?;
    log.put(7, &[70, 71], writing.put(7, &[70, 71])?)?;
    log.put(7, &[72, 73], writing.put(7, &[72, 73])?)?;
    log.put_at(7, &[74, 75], writing.put_if(7, 2, &[74, 75])?)?;
    log.looked(7, reader.get(7))?;
    log.looked(8, reader.get(8))?;
    log.looked(8, Reply::Busy)?;
    log.removed(8, writing.remove(8)?)?;
    log.removed(7, writing.remove(7)?)?;
    log.swapped(1, &[10, 11], &writing.swap(1, &[10, 11])?)?;
    log.swapped(1, &[12, 13], &writing.swap(1, &[12, 13])?)?;
    log.taken(1, &writing.take(1)?)?;
    log.taken(1, &writing.take(1)?)?;
    assert_eq!(
        text(log)?,
        "words 2\nput 1 7 70 71\nput 2 7 72 73\nput 3 7 74 75\nfound 3 3 7 74 75\nabsent 3 8\nabsent 3 8\nremove 4 7\nput 5 1 10 11\n\
         found 5 5 1 10 11\nput 6 1 12 13\nfound 6 6 1 12 13\nremove 7 1\nabsent 7 1\n"
    );
    Ok(())
}

#[test]
fn an_eviction_is_a_change_of_its_own() -> Tested {
    let mut handles = Cache::<1>::open(&Shape { items: 1, ..Shape::for_items(100, 1)? }, 1, 1)?;
    let mut writing = handles[0].hold()?;
    let mut log = AuditLog::new(Vec::new())?;
    log.put(1, &[10], writing.put(1, &[10])?)?;
    log.put(2, &[20], writing.put(2, &[20])?)?;
    log.swapped(3, &[30], &writing.swap(3, &[30])?)?;
    log.evicted(&writing.evict(1)?)?;
    log.evicted(&writing.evict(1)?)?;
    assert_eq!(
        text(log)?,
        "words 1\nput 1 1 10\nevict 2 1\nput 3 2 20\nfound 3 3 2 20\nevict 4 2\nput 5 3 30\nfound 5 5 3 30\nevict 6 3\n"
    );
    Ok(())
}

#[test]
fn entries_that_are_left_out_are_no_changes() -> Tested {
    let entries = [(1, [10]), (2, [20]), (3, [30])];
    let opened = Cache::<1>::open_with(&Shape { items: 2, ..Shape::for_items(100, 1)? }, 1, 1, &entries)?;
    let mut log = AuditLog::new(Vec::new())?;
    log.opened(&entries, &opened.left)?;
    assert_eq!(text(log)?, "words 1\nput 1 1 10\nput 2 2 20\n");
    let mut log = AuditLog::new(Vec::new())?;
    log.opened(&entries, &[(1, cefrodil::Why::NoPath)])?;
    assert_eq!(text(log)?, "words 1\nput 1 1 10\nput 2 3 30\n");
    Ok(())
}

// A stream that takes this many bytes.
struct Full(usize);

impl io::Write for Full {
    fn write(&mut self, bytes: &[u8]) -> io::Result<usize> {
        let taken = bytes.len().min(self.0);
        self.0 -= taken;
        Ok(taken)
    }

    fn flush(&mut self) -> io::Result<()> {
        Ok(())
    }
}

#[test]
fn a_stream_that_is_full_is_an_error() -> Tested {
    assert!(AuditLog::<1, _>::new(Full(7)).is_err());
    let mut log = AuditLog::<1, _>::new(Full(17))?;
    assert!(log.looked(7, Reply::Absent { at: 1 }).is_err());
    assert!(AuditLog::<1, _>::new(Full(19))?.looked(7, Reply::Absent { at: 1 }).is_ok());
    Ok(())
}

fn work(mut handle: Handle<1>, number: u64) -> Result<String, Box<dyn Error + Send + Sync>> {
    let mut log = AuditLog::new(Vec::new())?;
    for n in 0..2000 {
        let key = (n * 7 + number) % 20;
        match handle.try_put(key, &[n]) {
            Ok(put) => log.put(key, &[n], put)?,
            Err(TurnError::Held) => thread::yield_now(),
            Err(why) => return Err(why.into()),
        }
        log.looked(key, handle.get(key))?;
        if let Ok(removal @ Removal::Removed { .. }) = handle.try_remove(key + 1) {
            log.removed(key + 1, removal)?;
        }
        log.looked(key + 1, handle.get(key + 1))?;
        if let Ok(swapped) = handle.try_swap(key + 2, &[n]) {
            log.swapped(key + 2, &[n], &swapped)?;
        }
        if let Ok(take) = handle.try_take(key + 3) {
            log.taken(key + 3, &take)?;
        }
        if let Ok(evict @ Evict::Evicted { .. }) = handle.try_evict(key) {
            log.evicted(&evict)?;
        }
    }
    Ok(String::from_utf8(log.into_inner())?)
}

// The lines with their moments: those of changes before those of answers at the same moment.
fn in_order(logs: &[String]) -> Vec<(u64, bool, Vec<&str>)> {
    let lines = logs.iter().flat_map(|log| log.lines().skip(1)).map(|line| line.split(' ').collect::<Vec<_>>());
    let is_answer = |name: &str| name == "found" || name == "absent";
    let mut all: Vec<_> = lines.map(|words| (words[1].parse().expect("a moment"), is_answer(words[0]), words)).collect();
    all.sort();
    all
}

#[test]
fn logs_of_threads_are_true_of_a_plain_map() -> Tested {
    let handles = Cache::<1>::open(&Shape { items: 10, ..Shape::for_items(100, 1)? }, 1, 3)?;
    let threads: Vec<_> =
        handles.into_iter().zip(0..).map(|(handle, number)| thread::spawn(move || work(handle, number))).collect();
    let mut logs = Vec::new();
    for thread in threads {
        logs.push(thread.join().map_err(|_| "a thread panicked")?.map_err(|why| why.to_string())?);
    }
    let (mut map, mut moment, mut answers) = (BTreeMap::new(), 0, 0);
    for (at, is_answer, words) in in_order(&logs) {
        moment += u64::from(!is_answer);
        answers += u64::from(is_answer);
        assert_eq!(at, moment, "{words:?}");
        match words[..] {
            ["put", at, key, value] => drop(map.insert(key, (at, value))),
            ["remove" | "evict", _, key] => assert!(map.remove(key).is_some(), "{words:?}"),
            ["found", _, since, key, value] => assert_eq!(map.get(key), Some(&(since, value)), "{words:?}"),
            ["absent", _, key] => assert!(!map.contains_key(key), "{words:?}"),
            _ => panic!("{words:?}"),
        }
    }
    assert!(moment > 1000 && answers > 1000);
    Ok(())
}

#[test]
fn a_handle_alone_may_log() -> Tested {
    let mut handles = Cache::<1>::open(&Shape::for_items(100, 1)?, 1, 1)?;
    let mut writing = handles[0].hold()?;
    let mut log = AuditLog::new(Vec::new())?;
    log.put(1, &[10], writing.put_if_absent(1, &[10])?)?;
    log.looked(1, writing.get(1))?;
    assert_eq!(text(log)?, "words 1\nput 1 1 10\nfound 1 1 1 10\n");
    Ok(())
}
