//! Schedules to judge: legal ones drawn at random, and small changes to them.

use crate::model::files::Entry;
use crate::rng::Rng;
use std::collections::BTreeSet;

/// Takes `count` pages drawn from the buffer out of it.
fn draw(buffer: &mut BTreeSet<u32>, count: usize, rng: &mut Rng) -> Vec<u32> {
    let mut drawn = Vec::new();
    while drawn.len() < count {
        let held: Vec<u32> = buffer.iter().copied().collect();
        let page = rng.pick(&held);
        buffer.remove(&page);
        drawn.push(page);
    }
    drawn
}

/// EVs at request t until at most `room` pages are held, and now and then some more.
fn evict(out: &mut Vec<Entry>, buffer: &mut BTreeSet<u32>, t: u32, a: u32, room: usize, rng: &mut Rng) {
    while buffer.len() > room || (!buffer.is_empty() && rng.once_in(6)) {
        let most = buffer.len().min(a as usize);
        let pages = draw(buffer, rng.between(1, most), rng);
        out.push(Entry::Ev { t, pages });
    }
}

/// PFs at request t, which leave room for the requested page.
fn fetch(out: &mut Vec<Entry>, buffer: &mut BTreeSet<u32>, t: u32, k: u32, trace: &[u32], rng: &mut Rng) {
    let requested = trace[t as usize];
    while rng.once_in(4) {
        let page = if rng.once_in(5) { rng.word() } else { rng.pick(trace) };
        let waiting = page != requested && !buffer.contains(&requested);
        if buffer.len() + usize::from(waiting) < k as usize && buffer.insert(page) {
            out.push(Entry::Pf { t, page });
        }
    }
}

/// A legal schedule of a trace: several EVs at one request, pages evicted for no reason or just
/// before their request, pages fetched ahead.
pub fn legal(k: u32, a: u32, trace: &[u32], rng: &mut Rng) -> Vec<Entry> {
    let mut out = Vec::new();
    let mut buffer = BTreeSet::new();
    for (t, &page) in trace.iter().enumerate() {
        let t = t as u32;
        let room = if buffer.contains(&page) { k as usize } else { k as usize - 1 };
        evict(&mut out, &mut buffer, t, a, room, rng);
        fetch(&mut out, &mut buffer, t, k, trace, rng);
        buffer.insert(page);
    }
    out
}

fn change_time(entry: &mut Entry, n: usize, rng: &mut Rng) {
    let (Entry::Ev { t, .. } | Entry::Pf { t, .. }) = entry;
    *t = match rng.below(5) {
        0 => t.wrapping_add(1),
        1 => t.wrapping_sub(1),
        2 => n as u32,
        3 => rng.below(n + 1) as u32,
        _ => rng.word(),
    };
}

fn change_pages(entry: &mut Entry, trace: &[u32], rng: &mut Rng) {
    let page = if trace.is_empty() || rng.once_in(4) { rng.word() } else { rng.pick(trace) };
    match entry {
        Entry::Pf { page: old, .. } => *old = page,
        Entry::Ev { pages, .. } => match rng.below(4) {
            0 => pages.push(page),
            1 => drop(pages.pop()),
            2 => pages.push(pages.first().copied().unwrap_or(page)),
            _ => pages.iter_mut().take(1).for_each(|first| *first = page),
        },
    }
}

/// One change to whole records: left out, repeated, moved, another time or page, a new one.
pub fn disturb(entries: &mut Vec<Entry>, trace: &[u32], rng: &mut Rng) {
    let last = entries.len();
    if last == 0 || rng.once_in(8) {
        let page = if trace.is_empty() { 0 } else { rng.pick(trace) };
        let t = rng.below(trace.len() + 1) as u32;
        let new = if rng.once_in(2) { Entry::Pf { t, page } } else { Entry::Ev { t, pages: vec![page] } };
        entries.insert(rng.below(last + 1), new);
        return;
    }
    let at = rng.below(last);
    match rng.below(6) {
        0 => drop(entries.remove(at)),
        1 => entries.insert(at, entries[at].clone()),
        2 => entries.swap(at, rng.below(last)),
        3 if at + 1 < last => entries.swap(at, at + 1),
        4 => change_time(&mut entries[at], trace.len(), rng),
        _ => change_pages(&mut entries[at], trace, rng),
    }
}
