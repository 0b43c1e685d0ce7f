//! Objects that threads retire at the same time wait in the order of their epochs. Else one could be freed that a call has found.
use crate::objects::Epochs;
use std::sync::Barrier;
use std::thread;

const THREADS: u64 = 8;
const EACH: u64 = 20_000;

#[test]
fn objects_wait_in_the_order_of_their_epochs() {
    let (epochs, start) = (Epochs::new(1), Barrier::new(THREADS as usize));
    let pinned = epochs.pin(None);
    thread::scope(|threads| {
        for thread in 0..THREADS {
            let (epochs, start) = (&epochs, &start);
            threads.spawn(move || {
                start.wait();
                let slot = (thread == 0).then_some(0);
                (0..EACH).for_each(|number| assert!(epochs.retire(slot, thread * EACH + number).is_empty()));
            });
        }
    });
    assert!(epochs.are_in_order());
    drop(pinned);
    let mut free = epochs.free_now();
    free.sort_unstable();
    assert_eq!(free, (0..THREADS * EACH).collect::<Vec<_>>());
}
