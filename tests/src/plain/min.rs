//! Farthest next use: next requests by a hash map, held pages in an ordered set.

use std::collections::{BTreeSet, HashMap};

/// For each request the number of requests from the page's next one on; 0 if there is none.
pub fn lefts(trace: &[u32]) -> Vec<u32> {
    let mut seen = HashMap::with_capacity(trace.len());
    let mut out = vec![0; trace.len()];
    for (t, &page) in trace.iter().enumerate().rev() {
        out[t] = seen.insert(page, (trace.len() - t) as u32).unwrap_or(0);
    }
    out
}

/// Bundles and loads of a whole trace; `each` receives every bundle.
pub fn run(k: u32, a: u32, trace: &[u32], mut each: impl FnMut(u32, &[u32])) -> (u32, u32) {
    let lefts = lefts(trace);
    // Requests left from the next one on, the last request's number, the page.
    let mut held: BTreeSet<(u32, u32, u32)> = BTreeSet::new();
    let (mut bundles, mut loads) = (0, 0);
    let mut gone = Vec::new();
    for (t, &page) in trace.iter().enumerate() {
        // A held page that is requested now has the most requests left, and no other has as many.
        let now = (trace.len() - t) as u32;
        let last = held.iter().next_back().copied();
        if let Some(row) = last.filter(|row| row.0 == now) {
            held.remove(&row);
        } else {
            loads += 1;
            if held.len() == k as usize {
                gone.clear();
                gone.extend(held.iter().take(a as usize).copied());
                for row in &gone {
                    held.remove(row);
                }
                let pages: Vec<u32> = gone.iter().map(|row| row.2).collect();
                each(t as u32, &pages);
                bundles += 1;
            }
        }
        held.insert((lefts[t], t as u32, page));
    }
    (bundles, loads)
}

/// The schedule's bytes.
pub fn schedule(k: u32, a: u32, trace: &[u32]) -> Vec<u8> {
    let mut out = Vec::new();
    out.extend_from_slice(b"KA");
    out.extend_from_slice(&(k as u16).to_le_bytes());
    out.extend_from_slice(&(a as u16).to_le_bytes());
    run(k, a, trace, |t, pages| {
        out.extend_from_slice(b"EV");
        out.extend_from_slice(&t.to_le_bytes());
        out.extend_from_slice(&(pages.len() as u16).to_le_bytes());
        for page in pages {
            out.extend_from_slice(&page.to_le_bytes());
        }
    });
    out
}
