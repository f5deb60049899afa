//! Farthest next use over a whole trace, and the schedule it writes.

use super::files::{schedule_file, Entry};
use super::{check_trace, Bundle, Refusal};
use std::collections::{BTreeSet, HashMap};

/// What a trace does, from an empty buffer.
#[derive(Clone, Debug, PartialEq, Eq)]
pub struct Run {
    pub bundles: Vec<Bundle>,
    pub loads: u32,
    /// The pages held at the end.
    pub held: BTreeSet<u32>,
}

/// For each request the number of the next request for its page; none if there is no further one.
fn next_requests(trace: &[u32]) -> Vec<Option<usize>> {
    let mut seen = HashMap::new();
    let mut next = vec![None; trace.len()];
    for (t, &page) in trace.iter().enumerate().rev() {
        next[t] = seen.insert(page, t);
    }
    next
}

/// The numbers of a held page's last request and of its next one, if there is one.
struct Requested {
    last: usize,
    next: Option<usize>,
}

/// Held pages, ordered so that the first goes first: pages never requested again from the least
/// recently requested on, then the others from the farthest on.
fn order(held: &HashMap<u32, Requested>) -> Vec<u32> {
    let mut rows: Vec<(&Requested, u32)> = held.iter().map(|(&page, requested)| (requested, page)).collect();
    rows.sort_by(|x, y| match (x.0.next, y.0.next) {
        (None, None) => x.0.last.cmp(&y.0.last),
        (None, Some(_)) => std::cmp::Ordering::Less,
        (Some(_), None) => std::cmp::Ordering::Greater,
        (Some(s), Some(t)) => t.cmp(&s),
    });
    rows.into_iter().map(|row| row.1).collect()
}

/// MIN's rule on the first `stop` requests of a trace that is known whole.
pub fn run_until(k: u32, a: u32, trace: &[u32], stop: usize) -> Result<Run, Refusal> {
    check_trace(k, a, trace)?;
    let next = next_requests(trace);
    let mut held: HashMap<u32, Requested> = HashMap::new();
    let mut bundles = Vec::new();
    let mut loads = 0;
    for (t, &page) in trace.iter().enumerate().take(stop) {
        if !held.contains_key(&page) {
            loads += 1;
            if held.len() == k as usize {
                let bundle = order(&held)[..a as usize].to_vec();
                for gone in &bundle {
                    held.remove(gone);
                }
                bundles.push((t as u32, bundle));
            }
        }
        held.insert(page, Requested { last: t, next: next[t] });
    }
    Ok(Run { bundles, loads, held: held.keys().copied().collect() })
}

pub fn run(k: u32, a: u32, trace: &[u32]) -> Result<Run, Refusal> {
    run_until(k, a, trace, trace.len())
}

/// The bytes of a run's schedule.
pub fn schedule(k: u32, a: u32, bundles: &[Bundle]) -> Vec<u8> {
    let entries: Vec<Entry> =
        bundles.iter().map(|(t, pages)| Entry::Ev { t: *t, pages: pages.clone() }).collect();
    schedule_file(k, a, &entries)
}

/// What the call that writes a schedule answers.
#[derive(Clone, Debug, PartialEq, Eq)]
pub struct Written {
    pub bundles: u32,
    pub loads: u32,
    pub length: u32,
}

/// Writes the schedule into lent bytes; 8, with nothing written, if they are too few.
pub fn write(k: u32, a: u32, trace: &[u32], out: &mut [u8]) -> Result<Written, Refusal> {
    let run = run(k, a, trace)?;
    let bytes = schedule(k, a, &run.bundles);
    if out.len() < bytes.len() {
        return Err(8);
    }
    out[..bytes.len()].copy_from_slice(&bytes);
    Ok(Written { bundles: run.bundles.len() as u32, loads: run.loads, length: bytes.len() as u32 })
}
