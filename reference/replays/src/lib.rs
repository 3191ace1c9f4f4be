//! Trace files and the scheduler that plays them, a second time and in plain Rust: made from the
//! documents alone, so that what it says can be held against the first.

pub mod format;
pub mod many;
pub mod random;
pub mod report;
pub mod suites;

pub mod refusal;
pub mod roster;
pub mod rule;
pub mod stamps;
pub mod pool;
pub mod scheduler;

pub mod station;
pub mod listing;
pub mod replay;

pub mod busy;
pub mod damage;
pub mod tally;
pub mod workload;
