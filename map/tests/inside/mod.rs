//! Tests that need what the map doesn't show: its clock, shapes and tries, its handles and calls of the index, who waits for a value, and where its
//! errors come from.
mod boards;
mod deadlocks;
mod detaching;
mod disturbed;
mod ended;
#[cfg(feature = "objects")]
mod epochs;
mod errors;
mod evicting;
mod expiry;
mod fills;
mod flights;
mod forks;
mod generations;
mod held;
mod idle;
#[cfg(feature = "objects")]
mod object_disturbed;
#[cfg(feature = "objects")]
mod object_flights;
#[cfg(feature = "objects")]
mod object_idle;
#[cfg(feature = "objects")]
mod object_turns;
#[cfg(feature = "objects")]
mod object_weights;
#[cfg(feature = "objects")]
mod objects;
#[cfg(feature = "objects")]
mod objects_left;
mod overtaken;
mod places;
mod prints;
mod shapes;
mod slots;
mod stalled;
mod timed;
mod turns;
mod waiting;
mod waits;

use crate::slots::Slots;
use cefrodil::{Handle, Shape, Writing};
use std::sync::Arc;

// The shape of a map of one shard with places for so many entries.
fn one_shard(items: u32) -> Shape {
    Shape::for_items(items, 1).unwrap()
}

// Holds every turn, as another thread's handle does, until it is dropped.
fn hold(slots: &Arc<Slots<Handle<1>>>) -> Writing<'static, 1> {
    let (mut own, _) = slots.own().unwrap();
    own.more(1).unwrap().remove(0).into_writing().unwrap()
}

// Takes what a call returned that a test has no use for.
fn done<T>(_: T) {}
