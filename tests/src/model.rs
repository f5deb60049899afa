//! Document 01's rules, Req 01's for oldest load first, Req 02's for what the layers answer and count by
//! rule, Req 03's for runs of one page, Req 08's for the two editions of a trace, and Req 09's for marking:
//! the limits, and a file for each part.

pub mod editions;
pub mod fifo;
pub mod files;
pub mod judge;
pub mod layers;
pub mod lines;
pub mod lru;
pub mod mark;
pub mod min;
pub mod queue;

/// The largest k.
pub const K_MAX: u32 = 256;

/// The most requests that MIN, the judge and the library's calls between editions take.
pub const TRACE_MAX: usize = 65_536;

/// The most requests that the programs `bench`, `to_old` and `to_new` take.
pub const BENCH_MAX: usize = 4_096;

/// A refusal's number.
pub type Refusal = u32;

/// A bundle: the request that needed it and its pages in order.
pub type Bundle = (u32, Vec<u32>);

/// Refusals 1 and 2.
pub fn check_sizes(k: u32, a: u32) -> Result<(), Refusal> {
    if k == 0 || k > K_MAX {
        return Err(1);
    }
    if a == 0 || a > k {
        return Err(2);
    }
    Ok(())
}

/// Refusals 1, 2 and 3 of a call on a whole trace.
pub fn check_trace(k: u32, a: u32, trace: &[u32]) -> Result<(), Refusal> {
    check_sizes(k, a)?;
    if trace.len() > TRACE_MAX {
        return Err(3);
    }
    Ok(())
}

/// An answer in the form for C: the number, or the refusal's number made negative.
pub fn signed(answer: Result<u32, Refusal>) -> i64 {
    match answer {
        Ok(number) => i64::from(number),
        Err(refusal) => -i64::from(refusal),
    }
}
