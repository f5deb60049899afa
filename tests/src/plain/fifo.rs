//! Oldest load first: a request on a list from oldest to newest load, a trace with a ring of pages and a hash
//! set of them.

use std::collections::{HashSet, VecDeque};

/// One request with no check of the state: 0 for a hit, 1 for a load, 2 for a load after a bundle. A load is
/// LRU's, and written out here all the same: with one function for both, LRU's search compiles to another loop,
/// and its figures can no longer be compared with earlier ones.
pub fn request(
    k: usize,
    a: usize,
    count: &mut usize,
    cache: &mut [u32],
    evicted: &mut [u32],
    page: u32,
) -> u32 {
    if cache[..*count].contains(&page) {
        return 0;
    }
    let mut answer = 1;
    if *count == k {
        evicted[..a].copy_from_slice(&cache[..a]);
        cache.copy_within(a..k, 0);
        cache[k - a..k].fill(0);
        *count = k - a;
        answer = 2;
    }
    cache[*count] = page;
    *count += 1;
    answer
}

/// Bundles and loads of a whole trace.
pub fn run(k: u32, a: u32, trace: &[u32]) -> (u32, u32) {
    let (k, a) = (k as usize, a as usize);
    let mut ring = VecDeque::with_capacity(k);
    let mut held = HashSet::with_capacity(2 * k);
    let (mut bundles, mut loads) = (0, 0);
    for &page in trace {
        if held.contains(&page) {
            continue;
        }
        if ring.len() == k {
            for gone in ring.drain(..a) {
                held.remove(&gone);
            }
            bundles += 1;
        }
        ring.push_back(page);
        held.insert(page);
        loads += 1;
    }
    (bundles, loads)
}
