//! The alpha-paging bench a second time, written from document 01 and document 02's requests, and what
//! the test programs share. Nothing here is taken from the proved crates.
//!
//! `model` is the second implementation: slow where slow is plainer.
//! `plain` has the versions without proofs that the timings compare with.

#[cfg(feature = "exports")]
pub mod calls;
pub mod cases;
#[cfg(feature = "exports")]
pub mod comparisons;
pub mod damage;
pub mod exported;
pub mod judge_cases;
pub mod mark_cases;
pub mod model;
pub mod orders;
pub mod plain;
pub mod programs;
pub mod report;
pub mod rng;
pub mod schedules;
pub mod small;
#[cfg(feature = "exports")]
pub mod states;
pub mod timing;
pub mod traces;
