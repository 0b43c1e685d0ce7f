//! A twin of the cache that nothing proves: the same words, the same order of loads and stores, each of them sequentially
//! consistent. It shows what the algorithm costs in ordinary Rust, and so the price of the proofs.
pub mod free;
pub mod latencies;
pub mod protocol;
pub mod search;
pub mod table;
pub mod writer;
