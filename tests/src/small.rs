//! All small lists, and the sets that MIN may hold after a small trace.

use crate::model::min;
use std::collections::{BTreeSet, HashSet};

/// All lists over some number of symbols, up to a length, the shorter ones first.
pub fn lists(symbols: u32, length: usize) -> Vec<Vec<u32>> {
    let mut out: Vec<Vec<u32>> = vec![vec![]];
    let mut from = 0;
    for _ in 0..length {
        let to = out.len();
        for place in from..to {
            for symbol in 0..symbols {
                out.push([&out[place][..], &[symbol]].concat());
            }
        }
        from = to;
    }
    out
}

/// All sound k and a with k up to 4.
pub fn sizes() -> Vec<(u32, u32)> {
    (1..=4).flat_map(|k| (1..=k).map(move |a| (k, a))).collect()
}

/// Continuations without a repeated page, over the pages below some number: what MIN's rule asks of the
/// future is only the order in which pages are first requested in it, so these stand for all.
pub fn arrangements(pages: u32) -> Vec<Vec<u32>> {
    let mut out = Vec::new();
    arrange(pages, &[], &mut out);
    out
}

fn arrange(pages: u32, so_far: &[u32], out: &mut Vec<Vec<u32>>) {
    out.push(so_far.to_vec());
    for page in (0..pages).filter(|page| !so_far.contains(page)) {
        arrange(pages, &[so_far, &[page]].concat(), out);
    }
}

/// The sets that MIN holds after a trace, each for some of the continuations.
pub fn held_sets(k: u32, a: u32, trace: &[u32], continuations: &[Vec<u32>]) -> HashSet<BTreeSet<u32>> {
    let held = |more: &Vec<u32>| {
        let whole = [trace, more].concat();
        min::run_until(k, a, &whole, trace.len()).expect("k and a are sound").held
    };
    continuations.iter().map(held).collect()
}
