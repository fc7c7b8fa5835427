//! An independent implementation of the base document 01: checking a recording, its
//! relations, closure, listing, verdict, witness, checker, load and lockreport.
//!
//! Closures are kept as per-task fronts (the number of leading events of each task that
//! belong to the set) with the latest acquire of every lock, and the listing is a
//! depth-first search in the listing's own order.

pub mod calls;
pub mod front;
pub mod gen;
pub mod recording;
pub mod search;
pub mod timing;

pub use calls::*;
pub use recording::{Recording, Refusal};
