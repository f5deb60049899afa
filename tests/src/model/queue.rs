//! What least recent use and oldest load first share, "same lists, same bundle size": the run record, the
//! refusals of a request, what the lent lists hold after it, and a whole trace. What a hit does and which
//! pages a bundle takes is said by each policy in a file of its own.

use super::{check_sizes, check_trace, Bundle, Refusal};
use std::collections::BTreeSet;

/// The run record.
#[derive(Clone, Debug, PartialEq, Eq)]
pub struct Record {
    pub k: u32,
    pub a: u32,
    pub requests: u32,
    pub loads: u32,
    pub evictions: u32,
}

/// What an accepted request answers.
#[derive(Clone, Debug, PartialEq, Eq)]
pub struct Served {
    pub record: Record,
    pub count: u32,
    /// 0 for a hit, 1 for a load, 2 for a load after a bundle.
    pub answer: u32,
}

/// A policy, as the buffer that it keeps.
pub trait Policy {
    /// The buffer that the held pages of a cache list stand for.
    fn of_list(held: &[u32]) -> Self;

    /// Serves a page. A load gives its bundle, which is empty if there was room.
    fn serve(&mut self, k: u32, a: u32, page: u32) -> Option<Vec<u32>>;

    /// The held pages in the cache list's order.
    fn list(&self) -> Vec<u32>;
}

fn well_formed(record: &Record, count: u32, cache: &[u32]) -> bool {
    let held = &cache[..count.min(record.k) as usize];
    let different: BTreeSet<u32> = held.iter().copied().collect();
    count <= record.k
        && different.len() == held.len()
        && record.evictions <= record.loads
        && record.loads <= record.requests
}

/// The refusals of a request, in order: 1, 2, 8, 9, 12.
fn check(record: &Record, count: u32, cache: &[u32], evicted: &[u32]) -> Result<(), Refusal> {
    check_sizes(record.k, record.a)?;
    if cache.len() < record.k as usize || evicted.len() < record.a as usize {
        return Err(8);
    }
    if !well_formed(record, count, cache) {
        return Err(9);
    }
    if record.requests == u32::MAX {
        return Err(12);
    }
    Ok(())
}

/// One request on a lent cache list and a lent evicted list.
pub fn request<P: Policy>(
    record: &Record,
    count: u32,
    cache: &mut [u32],
    evicted: &mut [u32],
    page: u32,
) -> Result<Served, Refusal> {
    check(record, count, cache, evicted)?;
    let mut buffer = P::of_list(&cache[..count as usize]);
    let bundle = buffer.serve(record.k, record.a, page);
    let mut next = record.clone();
    next.requests += 1;
    let mut answer = 0;
    if let Some(bundle) = bundle {
        next.loads += 1;
        answer = 1;
        if !bundle.is_empty() {
            next.evictions += 1;
            answer = 2;
            evicted[..bundle.len()].copy_from_slice(&bundle);
        }
    }
    let list = buffer.list();
    for (place, held) in cache[..record.k as usize].iter_mut().enumerate() {
        *held = list.get(place).copied().unwrap_or(0);
    }
    Ok(Served { record: next, count: list.len() as u32, answer })
}

/// What that request would answer, and in the evicted list its bundle: it is served on a copy of the state.
pub fn preview<P: Policy>(
    record: &Record,
    count: u32,
    cache: &[u32],
    evicted: &mut [u32],
    page: u32,
) -> Result<Served, Refusal> {
    request::<P>(record, count, &mut cache.to_vec(), evicted, page)
}

/// What a whole trace does, from an empty buffer.
#[derive(Clone, Debug, PartialEq, Eq)]
pub struct Run {
    pub bundles: Vec<Bundle>,
    pub loads: u32,
}

pub fn run<P: Policy>(k: u32, a: u32, trace: &[u32]) -> Result<Run, Refusal> {
    check_trace(k, a, trace)?;
    let mut buffer = P::of_list(&[]);
    let mut run = Run { bundles: Vec::new(), loads: 0 };
    for (t, &page) in trace.iter().enumerate() {
        if let Some(bundle) = buffer.serve(k, a, page) {
            run.loads += 1;
            if !bundle.is_empty() {
                run.bundles.push((t as u32, bundle));
            }
        }
    }
    Ok(run)
}
