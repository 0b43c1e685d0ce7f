//! A handle that holds every turn.
use cefrodil::{Cache, Handle, Held, Put, Reply, Shape, TurnError};
use std::mem;
use std::sync::atomic::{AtomicBool, Ordering::SeqCst};
use std::thread;
use tries::TRIES;

mod tries;

/// Sets the flag when it is dropped.
struct Ends<'a>(&'a AtomicBool);

impl Drop for Ends<'_> {
    fn drop(&mut self) {
        self.0.store(true, SeqCst);
    }
}

fn opened(handles: usize) -> Vec<Handle<1>> {
    Cache::open(&Shape::for_items(1000, 4).expect("a shape"), 4, handles).expect("memory")
}

#[test]
fn a_holder_writes_and_others_are_held() {
    let mut handles = opened(2);
    let [one, other] = &mut handles[..] else { unreachable!() };
    let mut writing = one.hold().expect("nobody else has a turn");
    for key in 0..64 {
        assert!(matches!(writing.put(key, &[key]), Ok(Put::Stored { .. })));
        assert_eq!(other.try_put(key, &[0]), Err(TurnError::Held));
    }
    assert_eq!(other.hold().unwrap_err(), Held);
    for (name, is_held) in TRIES {
        assert!(is_held(other), "{name}");
    }
    assert_eq!(other.get(7).value(), Some([7]));
    assert!(matches!(writing.get(7), Reply::Found { value: [7], .. }));
    let mut replies = [Reply::Busy; 2];
    writing.get_many(&[7, 64], &mut replies);
    assert_eq!(replies.map(Reply::value), [Some([7]), None]);
    assert_eq!((writing.peek(7).value(), writing.is_empty()), (Some([7]), false));
    let mut listed = writing.entries().expect("memory");
    listed.sort_unstable();
    assert_eq!(listed, (0..64).map(|key| (key, [key])).collect::<Vec<_>>());
    assert_eq!((writing.len(), writing.moment()), (64, 64));
    drop(writing);
    assert!(other.try_remove(7).is_ok());
    assert_eq!((one.get_or_turn(7).value(), one.try_moment()), (None, Ok(65)));
}

#[test]
fn dropping_gives_the_turns_back_after_a_panic_too() {
    let mut handles = opened(2);
    let [one, other] = &mut handles[..] else { unreachable!() };
    let panicked = thread::scope(|scope| {
        let holds = scope.spawn(|| {
            let _writing = one.hold().expect("nobody else has a turn");
            panic!("as it is meant to");
        });
        holds.join().is_err()
    });
    assert!(panicked);
    other.try_put(1, &[1]).expect("the turns are free");
    one.try_put(2, &[2]).expect("the handle is open");
}

#[test]
fn a_handle_that_writes_for_its_whole_life_is_given_back() {
    let mut handles = opened(2);
    let mut writing = handles.remove(0).into_writing().expect("nobody else has a turn");
    writing.put(1, &[1]).expect("there is room");
    let refused = handles.remove(0).into_writing().expect_err("another one holds");
    assert_eq!(refused.to_string(), "held");
    let mut other = refused.handle;
    assert_eq!((other.get(1).value(), other.try_put(1, &[2])), (Some([1]), Err(TurnError::Held)));
    let mut one = writing.into_handle();
    other.try_put(1, &[2]).expect("the turns are free");
    assert_eq!(one.get(1).value(), Some([2]));
    one.try_put(1, &[3]).expect("it tries as before");
    drop(one.into_writing());
    other.try_put(1, &[4]).expect("what is dropped gives the turns back");
}

// Of a handle that is borrowed for ever, `hold` returns what `into_handle` takes.
#[test]
fn a_handle_that_is_borrowed_for_ever_is_given_back() {
    let mut handles = opened(2);
    let leaked: &'static mut Handle<1> = Box::leak(Box::new(handles.remove(0)));
    let mut one = leaked.hold().expect("nobody else has a turn").into_handle();
    handles[0].try_put(1, &[1]).expect("the turns are free");
    assert_eq!(one.get(1).value(), Some([1]));
}

#[test]
fn a_handle_whose_writing_was_forgotten_still_holds() {
    let mut handles = opened(2);
    let [one, other] = &mut handles[..] else { unreachable!() };
    mem::forget(one.hold().expect("nobody else has a turn"));
    assert_eq!(other.try_put(1, &[1]), Err(TurnError::Held));
    one.try_put(1, &[1]).expect("it has every turn");
    let mut writing = one.hold().expect("it holds already");
    writing.put(2, &[2]).expect("there is room");
    drop(writing);
    other.try_put(1, &[2]).expect("the turns are free");
    mem::forget(one.hold().expect("nobody else has a turn"));
    drop(handles.remove(0));
    handles[0].try_put(1, &[3]).expect("a handle that is closed holds nothing");
}

#[test]
fn nobody_writes_between_two_calls_of_a_holder() {
    let mut handles = opened(3);
    let mut mine = handles.pop().expect("there are three");
    let done = AtomicBool::new(false);
    let mut held = 0;
    thread::scope(|scope| {
        // Also if an assertion fails here: the scope waits for the others.
        let _ends = Ends(&done);
        for mut handle in handles {
            let done = &done;
            scope.spawn(move || {
                for n in 0.. {
                    if done.load(SeqCst) {
                        break;
                    }
                    let _ = handle.try_put(n % 64, &[n]);
                }
            });
        }
        while held < 1000 {
            let Ok(mut writing) = mine.hold() else {
                // Another thread may have stopped within a turn, and needs this processor.
                thread::yield_now();
                continue;
            };
            let before = writing.moment();
            writing.put(1000, &[held]).expect("there is room");
            assert_eq!(writing.entries().expect("memory").len(), writing.len());
            assert_eq!(writing.moment(), before + 1);
            held += 1;
        }
    });
}
