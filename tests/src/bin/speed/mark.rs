//! Marking: whole traces and single checked requests, beside the plain versions and beside the calls that
//! they stand on.

use crate::{long_table, low_half_zero, traces, tug, K};
use bench_tests::exported::{exports, marking};
use bench_tests::model::mark::{Lists, Record};
use bench_tests::model::{layers, queue, TRACE_MAX};
use bench_tests::plain;
use bench_tests::rng::Rng;
use bench_tests::timing::{opaque, Table, REPEATS};
use bench_tests::traces::{of_kind, scattered, KINDS};

/// The timed traces with their names, and one of a parked tug.
fn named(a: u32) -> Vec<(String, Vec<u32>)> {
    let mut out = traces(a, TRACE_MAX);
    out.push((format!("a {}, parked tug", a), tug(a, TRACE_MAX)));
    out
}

/// Marking over a trace on a table of its own, which is cleared each time: refusal, bundles, loads.
fn over_trace(k: u32, a: u32, pages: &[u32], table: &mut [Vec<u32>; 3]) -> [u64; 3] {
    table.iter_mut().for_each(|list| list.fill(0));
    let [places, numbers, times] = table;
    let mut out = [0; 3];
    marking::mark_over_trace(k, a, opaque(pages), places, numbers, times, &mut out);
    out
}

fn unused() -> [Vec<u32>; 3] {
    [(); 3].map(|_| vec![0; TRACE_MAX])
}

pub fn time_traces(table: &mut Table) {
    for a in [1, 64] {
        for (name, pages) in named(a) {
            let mut places = unused();
            let ours = || over_trace(K, a, &pages, &mut places);
            let plain = || {
                let (bundles, loads, ..) = plain::mark::run(K, a, opaque(&pages));
                [0, bundles, loads].map(u64::from)
            };
            table.row("mark", name, 1, &mut { ours }, &mut { plain });
        }
    }
}

/// The pairs of k and a at which marking is timed beside the layers: the largest buffer with bundles of
/// all sizes, and small ones.
const SIZES: [(u32, u32); 12] = [
    (256, 1),
    (256, 16),
    (256, 64),
    (256, 128),
    (256, 255),
    (256, 256),
    (64, 32),
    (64, 64),
    (16, 4),
    (16, 8),
    (16, 15),
    (2, 1),
];

/// The four kinds of traces for k and a, and cycles of a little more than k pages.
fn sized(k: u32, a: u32) -> Vec<(String, Vec<u32>)> {
    let mut rng = Rng::new(8);
    let mut out: Vec<(String, Vec<u32>)> = KINDS
        .iter()
        .map(|&kind| (kind.name().to_string(), of_kind(kind, k, a, TRACE_MAX, &mut rng, scattered)))
        .collect();
    for more in [1, k / 4 + 1] {
        let cycle = (0..TRACE_MAX).map(|t| scattered(t % (k + more) as usize)).collect();
        out.push((format!("cyclic k + {}", more), cycle));
    }
    out.into_iter().map(|(name, pages)| (format!("k {}, a {}, {}", k, a, name), pages)).collect()
}

/// Beside the layers alone over the same trace; of both answers only the refusal is the same.
pub fn time_beside_layers(table: &mut Table) {
    for (k, a) in SIZES {
        for (name, pages) in sized(k, a) {
            let (mut places, mut others) = (unused(), unused());
            let ours = || over_trace(k, a, &pages, &mut places)[0];
            let alone = || {
                others[..2].iter_mut().for_each(|list| list.fill(0));
                let [places, numbers, _] = &mut others;
                let mut out = [0; 4];
                exports::layers_over_trace(k, a, opaque(&pages), places, numbers, &mut out);
                out[0]
            };
            table.row("mark beside the layers", name, 1, &mut { ours }, &mut { alone });
        }
    }
}

/// The bundle of the timed single requests.
const A: u32 = 128;

/// A full buffer and a long table, as one request finds them.
#[derive(Clone)]
struct Desk {
    record: Record,
    cache: Vec<u32>,
    marks: Vec<u32>,
    priorities: Vec<u64>,
    evicted: Vec<u32>,
    pages: Vec<u32>,
    numbers: Vec<u32>,
    times: Vec<u32>,
}

impl Desk {
    /// The table's last pages are cached, every second of them marked.
    fn new(long: &plain::layers::Table) -> Self {
        let (requests, t) = (1_000_000, 900_000);
        let layers = layers::Record {
            k: K,
            a: A,
            requests,
            evictions: 1_000,
            s: long.s,
            appends: 400_000,
            joins: 1_000,
            lifts: 599_000,
        };
        let record = Record { k: K, a: A, requests, loads: 500_000, evictions: 3_000, t, layers };
        let used = long.pages.len();
        let mut cache = long.pages[used - K as usize..].to_vec();
        cache.sort_unstable();
        let with_place = |list: &[u32]| [list, &[0]].concat();
        Desk {
            record,
            cache,
            marks: (0..K).map(|place| place % 2).collect(),
            priorities: (0..u64::from(K)).map(|place| 8_000_000 + place * 37 % 256).collect(),
            evicted: vec![0; A as usize],
            pages: with_place(&long.pages),
            numbers: with_place(&long.numbers),
            times: (0..used as u32).map(|place| place * 7 % t).chain([0]).collect(),
        }
    }

    fn lists(&mut self) -> Lists<'_> {
        Lists {
            cache: &mut self.cache,
            marks: &mut self.marks,
            priorities: &mut self.priorities,
            evicted: &mut self.evicted,
            pages: &mut self.pages,
            numbers: &mut self.numbers,
            times: &mut self.times,
        }
    }

    /// The request's refusal and answer.
    fn request(&mut self, page: u32) -> (u64, u64) {
        let (record, mut out) = (self.record.clone(), [0; 17]);
        marking::mark_request(&record, K, &mut self.lists(), page, &mut out);
        (out[0], out[16])
    }

    /// The same by the plain version.
    fn plain_request(&mut self, page: u32) -> (u64, u64) {
        let record = self.record.clone();
        match plain::mark_request::request(&record, K, &mut self.lists(), page) {
            Ok((_, _, answer)) => (0, u64::from(answer)),
            Err(refusal) => (u64::from(refusal), 0),
        }
    }

    /// A layers request and an LRU request for the page: whether one is refused, and LRU's answer.
    fn two_requests(&mut self, page: u32) -> (u64, u64) {
        let (mut of_layers, mut of_lru) = ([0; 10], [0; 8]);
        exports::layers_request(
            &self.record.layers,
            &mut self.pages,
            &mut self.numbers,
            page,
            &mut of_layers,
        );
        let Record { k, a, requests, loads, evictions, .. } = self.record;
        let record = queue::Record { k, a, requests, loads, evictions };
        exports::lru_request(&record, K, &mut self.cache, &mut self.evicted, page, &mut of_lru);
        (of_layers[0] + of_lru[0], of_lru[7])
    }
}

/// A way to make a request: its refusal and its answer.
type Way = fn(&mut Desk, u32) -> (u64, u64);

/// One request in two ways, each on a copy that was made before.
fn time_request(table: &mut Table, job: &'static str, what: String, desk: &Desk, page: u32, other: Way) {
    let (mut first, mut second) = (vec![desk.clone(); REPEATS], vec![desk.clone(); REPEATS]);
    let (mut ours, mut others) = (first.iter_mut(), second.iter_mut());
    table.row(job, what, 1, &mut || ours.next().expect("a copy for each repeat").request(page), &mut || {
        other(others.next().expect("a copy for each repeat"), page)
    });
}

/// The jobs: their places, and what a request stands beside.
const JOBS: [(usize, &str, Way); 4] = [
    (4_096, "one mark request, 4,096 places", Desk::plain_request),
    (65_536, "one mark request, 65,536 places", Desk::plain_request),
    (4_096, "one mark request beside a layers and an LRU request, 4,096 places", Desk::two_requests),
    (65_536, "one mark request beside a layers and an LRU request, 65,536 places", Desk::two_requests),
];

pub fn time_requests(table: &mut Table) {
    let namings = [("", scattered as fn(usize) -> u32), (", equal low halves", low_half_zero)];
    for (places, job, other) in JOBS {
        for (naming, name) in namings {
            let long = long_table(places, name);
            let desk = Desk::new(&long);
            let asked = [
                ("new page, with a bundle", name(places - 1)),
                ("newest page, a hit", long.pages[places - 2]),
                ("joining two long layers, a hit", long.pages[places - 200]),
                ("joining two long layers, with a bundle", long.pages[places - 600]),
            ];
            for (what, page) in asked {
                time_request(table, job, format!("{}{}", what, naming), &desk, page, other);
            }
        }
    }
}
