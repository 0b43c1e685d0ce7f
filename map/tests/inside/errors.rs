//! What the index refuses is an error of the map with the same meaning.
use crate::{ClearError, InsertError, OpenError};
use cefrodil::{ListError, PutError, Spent, TurnError};

#[test]
fn an_insert_is_refused_for_the_reason_of_the_index() {
    let of = |why| InsertError::of(TurnError::Call(why));
    assert_eq!(of(PutError::NoPath), InsertError::NoPlace);
    assert_eq!(of(PutError::AllRecent), InsertError::AllRecent);
    assert_eq!(of(PutError::Spent), InsertError::Spent);
    assert_eq!(InsertError::of(TurnError::Held), InsertError::Held);
}

#[test]
fn so_is_a_clear() {
    assert_eq!(ClearError::of_list(TurnError::Held), ClearError::Held);
    assert_eq!(ClearError::of_list(TurnError::Call(ListError::NoMemory)), ClearError::NoMemory);
    assert_eq!(ClearError::of_removal(TurnError::Held), ClearError::Held);
    assert_eq!(ClearError::of_removal(TurnError::Call(Spent)), ClearError::Spent);
}

#[test]
fn so_is_an_opening() {
    let processor = cefrodil::OpenError::Processor;
    assert_eq!(OpenError::of(cefrodil::OpenError::Items), OpenError::Capacity);
    assert_eq!(OpenError::of(cefrodil::OpenError::Shards), OpenError::Shards);
    assert_eq!(OpenError::of(cefrodil::OpenError::Handles), OpenError::Threads);
    assert_eq!(OpenError::of(cefrodil::OpenError::NoMemory), OpenError::NoMemory);
    assert_eq!(OpenError::of(processor), OpenError::Index(processor));
}
