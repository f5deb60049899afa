//! Plain versions of the timed jobs: what one would write in Rust for speed without proofs, with no
//! check of the state; only `editions` and `mark_request` refuse, as their calls do. The timings compare the
//! proved code with these, and their answers as well.

pub mod bench;
pub mod editions;
pub mod fifo;
pub mod judge;
pub mod layers;
pub mod lru;
pub mod mark;
pub mod mark_request;
pub mod min;
pub mod preview;
