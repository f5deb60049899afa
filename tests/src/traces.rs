//! Traces to test and to time with.

use crate::model::files::{trace_of, Asked};
use crate::rng::Rng;

/// The four kinds that are timed; the tests use them too.
#[derive(Clone, Copy, Debug, PartialEq, Eq)]
pub enum Kind {
    /// Drawn from k + k/8 + 1 pages.
    Few,
    /// Drawn from a third as many pages as there are requests.
    Many,
    /// No page twice.
    Different,
    /// k + a pages in turn.
    Cyclic,
}

pub const KINDS: [Kind; 4] = [Kind::Few, Kind::Many, Kind::Different, Kind::Cyclic];

impl Kind {
    pub fn name(self) -> &'static str {
        match self {
            Kind::Few => "few pages",
            Kind::Many => "many pages",
            Kind::Different => "all different",
            Kind::Cyclic => "cyclic k + a",
        }
    }
}

/// Scatters page names over all 32-bit values, one to one.
pub fn scattered(name: usize) -> u32 {
    (name as u32).wrapping_mul(2_654_435_761)
}

/// A trace of one kind; `name` turns 0, 1, 2 .. into page names.
pub fn of_kind(kind: Kind, k: u32, a: u32, n: usize, rng: &mut Rng, name: fn(usize) -> u32) -> Vec<u32> {
    let few = (k + k / 8 + 1) as usize;
    let page = |t: usize, rng: &mut Rng| match kind {
        Kind::Few => rng.below(few),
        Kind::Many => rng.below(n / 3 + 1),
        Kind::Different => t,
        Kind::Cyclic => t % (k + a) as usize,
    };
    (0..n).map(|t| name(page(t, rng))).collect()
}

/// Ways to name pages: small ones, the two ends of the range, equal low halves, scattered.
const NAMINGS: [fn(usize) -> u32; 6] = [
    |n| n as u32,
    |n| n as u32 + 1,
    |n| u32::MAX - n as u32,
    |n| (n as u32).rotate_left(16),
    scattered,
    |n| if n % 2 == 0 { n as u32 / 2 } else { u32::MAX - n as u32 / 2 },
];

/// A working set of `width` pages that moves on now and then.
fn drifting(n: usize, width: usize, rng: &mut Rng) -> Vec<usize> {
    let mut start = 0;
    (0..n)
        .map(|_| {
            if rng.once_in(8) {
                start += rng.below(width);
            }
            if rng.once_in(16) {
                rng.below(start + 1)
            } else {
                start + rng.below(width)
            }
        })
        .collect()
}

/// A trace of n requests for tests: any kind and any naming.
pub fn any(k: u32, a: u32, n: usize, rng: &mut Rng) -> Vec<u32> {
    let name = rng.pick(&NAMINGS);
    if rng.once_in(3) {
        let width = rng.between(1, k as usize + a as usize);
        return drifting(n, width, rng).into_iter().map(name).collect();
    }
    let kind = rng.pick(&KINDS);
    of_kind(kind, k, a, n, rng, name)
}

/// The same number of requests, but about one page in `every` is asked for 1 to `longest` times in a row.
pub fn parked(pages: &[u32], every: usize, longest: usize, rng: &mut Rng) -> Vec<u32> {
    let mut out = Vec::new();
    for &page in pages {
        let times = if rng.once_in(every) { rng.between(1, longest) } else { 1 };
        let left = pages.len() - out.len();
        out.extend(vec![page; times.min(left)]);
    }
    out
}

/// A trace of n requests like `any`, in which pages are mostly asked for several times in a row.
pub fn any_parked(k: u32, a: u32, n: usize, rng: &mut Rng) -> Vec<u32> {
    let pages = any(k, a, n, rng);
    let (every, longest) = (rng.between(1, 4), rng.pick(&[2, 3, 9, n / 2 + 1]));
    parked(&pages, every, longest, rng)
}

/// The records of a trace. `first` is given a page and how often it is asked for in a row from here on, and
/// says which record stands for the first of these requests.
fn records(pages: &[u32], mut first: impl FnMut(u32, usize) -> Asked) -> Vec<Asked> {
    let mut out = Vec::new();
    let mut rest = pages;
    while let Some(&page) = rest.first() {
        let stretch = rest.iter().take_while(|&&other| other == page).count();
        let mut done = 0;
        while done < stretch {
            let record = first(page, stretch - done);
            done += record.requests();
            out.push(record);
        }
        rest = &rest[stretch..];
    }
    out
}

/// The longest RR for some requests of a page in a row.
fn longest_run(page: u32, requests: usize) -> Asked {
    Asked::Rr { page, times: requests.min(65_535) as u16 }
}

/// The bytes of a trace's file in drawn records: requests of a page in a row are cut anywhere into RQs and
/// RRs, also of one request, also side by side, or are all one RR.
pub fn edition(k: u32, a: u32, pages: &[u32], rng: &mut Rng) -> Vec<u8> {
    let drawn = records(pages, |page, left| match rng.below(4) {
        0 => Asked::Rq { page },
        1 => longest_run(page, rng.between(1, left)),
        2 => longest_run(page, rng.between(1, left.min(3))),
        _ => longest_run(page, left),
    });
    trace_of(k, a, &drawn)
}

/// Files of exactly so many requests, an even number: single records of one page and of different ones, runs
/// of one request, a run beside a request for its page and for another, two runs of one page, a drawn mix.
pub fn exactly(requests: usize, rng: &mut Rng) -> Vec<Vec<u8>> {
    let one = |page| Asked::Rq { page };
    let different: Vec<Asked> = (0..requests as u32).map(one).collect();
    let (most, half) = (longest_run(5, requests - 1), longest_run(5, requests / 2));
    let named = [
        vec![one(7); requests],
        different,
        vec![longest_run(7, 1); requests],
        vec![most, one(5)],
        vec![one(6), most],
        vec![half, half],
    ];
    let mut files = named.map(|records| trace_of(3, 2, &records)).to_vec();
    files.push(edition(3, 2, &any_parked(3, 2, requests, rng), rng));
    files
}

/// Every way to write a trace in records: requests of one page in a row cut anywhere, a single one as RQ or
/// as RR.
pub fn every_edition(trace: &[u32]) -> Vec<Vec<Asked>> {
    let page = match trace.first() {
        None => return vec![vec![]],
        Some(&page) => page,
    };
    let stretch = trace.iter().take_while(|&&other| other == page).count();
    let runs = (1..=stretch).map(|times| Asked::Rr { page, times: times as u16 });
    let mut out = Vec::new();
    for first in runs.chain([Asked::Rq { page }]) {
        let rests = every_edition(&trace[first.requests()..]);
        out.extend(rests.into_iter().map(|rest| [&[first][..], &rest].concat()));
    }
    out
}

/// A sound pair k, a: small ones mostly, and the ends.
pub fn sizes(rng: &mut Rng) -> (u32, u32) {
    let k = match rng.below(8) {
        0 => rng.between(1, 256),
        1 => rng.pick(&[255, 256]),
        2 => rng.between(9, 32),
        _ => rng.between(1, 8),
    };
    let a = match rng.below(4) {
        0 => 1,
        1 => k,
        _ => rng.between(1, k),
    };
    (k as u32, a as u32)
}

/// A pair k, a that is often refused.
pub fn any_sizes(rng: &mut Rng) -> (u32, u32) {
    let (k, a) = sizes(rng);
    match rng.below(8) {
        0 => (rng.pick(&[0, 257, 258, 512, 65_535]), a),
        1 => (k, rng.pick(&[0, k + 1, 257, 65_535])),
        2 => (rng.pick(&[0, 257]), rng.pick(&[0, 258])),
        _ => (k, a),
    }
}
