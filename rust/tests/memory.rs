//! Without memory an opening, a list and a call for more handles are errors, which keep nothing. Each allocation is refused in turn: the
//! archive and the crate allocate by this program's own functions. A list allocates in its turn, so a batch of another handle is held
//! meanwhile.
use cefrodil::{Cache, Entry, Handle, Held, ListError, MoreError, OpenError, Put, PutError, Reply, Shape, TurnError, Why};
use std::cell::{Cell, RefCell};
use std::error::Error;
use std::ffi::{c_int, c_void};
use std::fmt::Debug;
use std::ptr;
use tries::{Try, TRIES};

mod tries;

type Tested = Result<(), Box<dyn Error>>;

const ALL: u32 = u32::MAX;
const OUT_OF_MEMORY: c_int = 12;

thread_local! {
    // How many allocations of this thread are left before one is refused.
    static LEFT: Cell<u32> = const { Cell::new(ALL) };
    // How many blocks this thread has taken and not given back.
    static KEPT: Cell<i64> = const { Cell::new(0) };
    // What an allocation of this thread by `malloc` calls first, until it returns true.
    static IN_TURN: Cell<Option<fn() -> bool>> = const { Cell::new(None) };
}

extern "C" {
    fn __libc_malloc(size: usize) -> *mut c_void;
    fn __libc_calloc(count: usize, size: usize) -> *mut c_void;
    fn __libc_realloc(block: *mut c_void, size: usize) -> *mut c_void;
    fn __libc_free(block: *mut c_void);
    fn memalign(align: usize, size: usize) -> *mut c_void;
}

// The block that this call takes, unless it is refused.
fn taken(take: impl FnOnce() -> *mut c_void) -> *mut c_void {
    let left = LEFT.get();
    LEFT.set(if left == ALL { ALL } else { left.saturating_sub(1) });
    let block = if left == 0 { ptr::null_mut() } else { take() };
    KEPT.set(KEPT.get() + i64::from(!block.is_null()));
    block
}

// SAFETY, of these five: they are the allocator that the C library has for these calls. A block of theirs is one of the C library's.
#[no_mangle]
extern "C" fn malloc(size: usize) -> *mut c_void {
    if let Some(call) = IN_TURN.take() {
        IN_TURN.set(if call() { None } else { Some(call) });
    }
    taken(|| unsafe { __libc_malloc(size) })
}

#[no_mangle]
extern "C" fn calloc(count: usize, size: usize) -> *mut c_void {
    taken(|| unsafe { __libc_calloc(count, size) })
}

#[no_mangle]
unsafe extern "C" fn realloc(block: *mut c_void, size: usize) -> *mut c_void {
    let moved = taken(|| unsafe { __libc_realloc(block, size) });
    KEPT.set(KEPT.get() - i64::from(!block.is_null() && !moved.is_null()));
    moved
}

#[no_mangle]
unsafe extern "C" fn posix_memalign(block: *mut *mut c_void, align: usize, size: usize) -> c_int {
    let aligned = taken(|| unsafe { memalign(align, size) });
    unsafe { *block = aligned };
    if aligned.is_null() {
        OUT_OF_MEMORY
    } else {
        0
    }
}

#[no_mangle]
unsafe extern "C" fn free(block: *mut c_void) {
    KEPT.set(KEPT.get() - i64::from(!block.is_null()));
    unsafe { __libc_free(block) };
}

fn with_allocations<T>(allowed: u32, call: impl FnOnce() -> T) -> T {
    LEFT.set(allowed);
    let told = call();
    LEFT.set(ALL);
    told
}

// A list that needs more than the two allocations of the crate. Each of them is refused in turn.
fn lists<T: Debug, E: PartialEq + Debug>(mut list: impl FnMut() -> Result<Vec<T>, E>, without_memory: &E) -> Vec<T> {
    for allowed in 0..20 {
        let kept = KEPT.get();
        match with_allocations(allowed, &mut list) {
            Err(why) => assert_eq!((&why, KEPT.get()), (without_memory, kept)),
            Ok(listed) => {
                assert!(allowed > 2, "a list after {allowed} allocations");
                return listed;
            }
        }
    }
    panic!("no list after twenty allocations");
}

// Opens after more than `least` refusals: the archive allocates, too. A refusal keeps nothing.
fn opens<T: Debug>(least: u32, mut open: impl FnMut() -> Result<T, OpenError>) -> T {
    for allowed in 0..500 {
        let kept = KEPT.get();
        match with_allocations(allowed, &mut open) {
            Err(why) => assert_eq!((why, KEPT.get()), (OpenError::NoMemory, kept)),
            Ok(opened) => {
                assert!(allowed > least, "an opening after {allowed} allocations");
                return opened;
            }
        }
    }
    panic!("no opening after 500 allocations");
}

// For two handles, the crate takes a list of the archive's, one of its own, and one of counters. To count, it takes what they share, a list of
// lines, and two lines.
const OF_CRATE: u32 = if cfg!(feature = "counts") { 7 } else { 3 };

#[test]
fn an_opening_without_memory_is_an_error() -> Tested {
    let shape = Shape::for_items(100, 1)?;
    for shards in [1, 4] {
        let mut handles = opens(OF_CRATE, || Cache::<2>::open(&shape, shards, 2));
        handles[1].try_put(7, &[70, 71])?;
        assert_eq!(handles[0].get(7).value(), Some([70, 71]));
    }
    Ok(())
}

// Its own lists are those of words, of statuses, and of what was left out.
#[test]
fn an_opening_with_entries_without_memory_is_an_error() -> Tested {
    let small = Shape { items: 2, ..Shape::for_items(100, 1)? };
    let mut opened = opens(OF_CRATE + 3, || Cache::<1>::open_with(&small, 1, 2, &[(7, [70]), (8, [80]), (9, [90])]));
    assert_eq!(opened.left, [(2, Why::NoItem)]);
    assert_eq!((opened.handles[0].try_len()?, opened.handles[1].get(8).value()), (2, Some([80])));
    Ok(())
}

// Two more handles, after more refusals than the crate alone allocates. A refusal may use spare handles up, whose memory is freed then.
fn more(handle: &mut Handle<1>) -> Vec<Handle<1>> {
    for allowed in 0..30 {
        let kept = KEPT.get();
        match with_allocations(allowed, || handle.more(2)) {
            Err(why) => assert_eq!((why, KEPT.get() <= kept), (MoreError::NoMemory, true)),
            Ok(more) => {
                assert!(allowed > OF_CRATE, "more handles after {allowed} allocations");
                return more;
            }
        }
    }
    panic!("no more handles after 30 allocations");
}

#[test]
fn more_handles_without_memory_are_an_error() -> Tested {
    let before = KEPT.get();
    for shards in [1, 4] {
        let mut handles = Cache::<1>::open(&Shape::for_items(100, shards)?, shards, 1)?;
        let mut more = more(&mut handles[0]);
        more[0].try_put(7, &[70])?;
        assert_eq!((more[1].get(7).value(), handles[0].get(7).value()), (Some([70]), Some([70])));
    }
    assert_eq!(KEPT.get(), before);
    Ok(())
}

#[test]
fn a_list_without_memory_is_an_error() -> Tested {
    for shards in [1, 4] {
        let mut handles = Cache::<2>::open(&Shape::for_items(100, shards)?, shards, 1)?;
        handles[0].try_put(7, &[70, 71])?;
        assert_eq!(lists(|| handles[0].try_entries(), &TurnError::Call(ListError::NoMemory)), [(7, [70, 71])]);
        let mut writing = handles[0].hold()?;
        assert_eq!(lists(|| writing.entries(), &ListError::NoMemory), [(7, [70, 71])]);
    }
    Ok(())
}

#[test]
fn a_list_with_stamps_without_memory_is_an_error() -> Tested {
    let expected = [Entry { key: 7, value: [70, 71], since: 1 }];
    for shards in [1, 4] {
        let mut handles = Cache::<2>::open(&Shape::for_items(100, shards)?, shards, 2)?;
        handles[0].try_put(7, &[70, 71])?;
        assert_eq!(lists(|| handles[0].try_stamped_entries(), &TurnError::Call(ListError::NoMemory)), expected);
        // None of those that failed holds.
        assert_eq!(handles[1].try_len(), Ok(1));
        let mut writing = handles[0].hold()?;
        assert_eq!(lists(|| writing.stamped_entries(), &ListError::NoMemory), expected);
    }
    Ok(())
}

thread_local! {
    static BESIDE: RefCell<Option<Handle<1>>> = const { RefCell::new(None) };
    static TOLD: Cell<Option<[PutInTurn; 40]>> = const { Cell::new(None) };
}

type PutInTurn = Result<Put, TurnError<PutError>>;

// More keys than one call of the archive takes.
fn put_batch(handle: &mut Handle<1>) -> [PutInTurn; 40] {
    let entries: [(u64, [u64; 1]); 40] = std::array::from_fn(|n| (100 + n as u64, [n as u64]));
    let mut told = [Ok(Put::Renewed { at: 0 }); 40];
    handle.try_put_many(&entries, &mut told);
    told
}

// The batch, once another handle has the turn.
fn put_beside() -> bool {
    BESIDE.with_borrow_mut(|handle| {
        let Some(handle) = handle else { return false };
        let is_held = handle.try_len() == Err(Held);
        if is_held {
            TOLD.set(Some(put_batch(handle)));
        }
        is_held
    })
}

// While a list has the turn, each put of a batch is held, and nothing is changed.
#[test]
fn a_batch_beside_a_list_is_held() -> Tested {
    let mut handles = Cache::<1>::open(&Shape::for_items(100, 1)?, 1, 2)?;
    BESIDE.set(handles.pop());
    handles[0].try_put(7, &[70])?;
    IN_TURN.set(Some(put_beside));
    assert_eq!(handles[0].try_entries()?, [(7, [70])]);
    assert_eq!((TOLD.get(), handles[0].try_len()?), (Some([Err(TurnError::Held); 40]), 1));
    let told = BESIDE.take().map(|mut handle| put_batch(&mut handle)).ok_or("no handle")?;
    assert_eq!(told.map(|put| put.map(Put::at)), std::array::from_fn(|n| Ok(2 + n as u64)));
    assert_eq!(handles[0].get(139).value(), Some([39]));
    Ok(())
}

// Each call that tries for the turn is held, and each but a batch's is counted once. Lookups need no turn.
fn call_beside() -> bool {
    BESIDE.with_borrow_mut(|handle| {
        let Some(handle) = handle else { return false };
        let is_held = handle.try_len() == Err(Held);
        if is_held {
            each_call_is_held(handle);
        }
        is_held
    })
}

fn each_call_is_held(handle: &mut Handle<1>) {
    let meter = handle.meter();
    let put_many: Try = ("try_put_many", |handle| {
        let mut told = [Ok(Put::Renewed { at: 0 })];
        handle.try_put_many(&[(7, [71])], &mut told);
        told == [Err(TurnError::Held)]
    });
    for (name, is_held) in TRIES.iter().chain([&put_many]) {
        let before = meter.counts().held;
        assert!(is_held(handle), "{name}");
        assert_eq!(meter.counts().held, before + u64::from(cfg!(feature = "counts")), "{name}");
    }
    let found = Reply::Found { value: [70], at: 1, since: 1 };
    assert_eq!(
        (handle.get(7), handle.get_or_turn(7), handle.get(8), handle.capacity()),
        (found, found, Reply::Absent { at: 1 }, 100)
    );
}

#[test]
fn each_call_beside_a_list_is_held() -> Tested {
    let mut handles = Cache::<1>::open(&Shape::for_items(100, 1)?, 1, 2)?;
    BESIDE.set(handles.pop());
    handles[0].try_put(7, &[70])?;
    IN_TURN.set(Some(call_beside));
    assert_eq!(handles[0].try_entries()?, [(7, [70])]);
    assert!(IN_TURN.take().is_none(), "the list took no memory in its turn");
    assert_eq!((handles[0].get(7), handles[0].try_len()?), (Reply::Found { value: [70], at: 1, since: 1 }, 1));
    drop(BESIDE.take());
    Ok(())
}

// A list takes memory for its words before it has the turn. Another handle may put entries meanwhile.
#[test]
fn a_list_has_room_for_what_is_put_before_its_turn() -> Tested {
    fn put_before() -> bool {
        BESIDE.with_borrow_mut(|handle| handle.as_mut().is_some_and(|handle| handle.try_put(8, &[80]).is_ok()))
    }
    let mut handles = Cache::<1>::open(&Shape::for_items(100, 1)?, 1, 2)?;
    BESIDE.set(handles.pop());
    handles[0].try_put(7, &[70])?;
    IN_TURN.set(Some(put_before));
    assert_eq!((handles[0].try_entries()?.len(), IN_TURN.take().is_none()), (2, true));
    drop(BESIDE.take());
    Ok(())
}

#[test]
fn to_hold_and_to_close_takes_no_memory() -> Tested {
    let before = KEPT.get();
    for shards in [1, 4] {
        let mut handles = Cache::<1>::open(&Shape::for_items(100, 1)?, shards, 64)?;
        let told = with_allocations(0, || {
            let meter = handles[0].meter();
            let moment = handles[0].hold().map(|mut writing| writing.moment());
            let writing = handles.pop().map(Handle::into_writing).is_some_and(|held| held.is_ok());
            drop(handles);
            (moment, writing, meter.counts().hits)
        });
        assert_eq!(told, (Ok(0), true, 0));
    }
    assert_eq!(KEPT.get(), before);
    Ok(())
}
