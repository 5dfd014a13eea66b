//! Trials of the session library from outside: differential tests, crash tests and benchmarks.

pub use support::{store, wire};

pub mod by_fec;
pub mod calls;
pub mod coverage;
pub mod crafted;
pub mod crash;
pub mod differential;
pub mod entries;
pub mod generate;
pub mod guarded;
pub mod inits;
pub mod random;
pub mod stored;
pub mod under_test;
