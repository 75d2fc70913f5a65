//! The calls from Rust: limits, refusals, examples, always-quoted symbols, the round trip, raw control characters and their conversion, damaged texts,
//! the index. What is expected is written out or built here from docs/FORMAT.md, node by node; every check compares the answer and the whole buffer, or
//! every entry, with guards around it.

mod check;
mod controls;
mod damage;
mod examples;
mod index;
mod limits;
mod quoted;
mod random;
mod refusals;
mod round_trip;
mod tapes;
