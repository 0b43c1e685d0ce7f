//! Maps of objects.
mod boards;
mod bytes;
mod capacity;
mod collisions;
mod each;
#[path = "../ends/mod.rs"]
mod ends;
#[path = "../executor/mod.rs"]
mod executor;
mod fills;
mod frees;
mod full;
mod generations;
mod handles;
mod ledger;
mod listener;
#[path = "../loads/mod.rs"]
mod loads;
mod model;
mod panics;
mod pins;
mod published;
mod stamps;
mod texts;
mod threads;
mod weights;
