//! Compares the model of marking with a second way to work it out, with its plain version and with the best
//! count.
//!
//! - On every trace of up to 6 requests for 4 pages, with k up to 4, marking is worked out without layers: a
//!   page is in L0 exactly if MIN may hold it for no continuation, and revealed exactly if MIN holds it for
//!   every one; marks are cleared where one more request raises MIN's count; t0 is looked up in the past
//!   requests. All bundles are the same, with RDM and with each other rule of priorities below.
//! - On those of up to 7 requests and on drawn ones, marking's count is at most k/a, rounded up, times MIN's
//!   and times the layers', with each rule of priorities.
//! - On these the plain version has the same counts, table and t0, and its single requests leave the same
//!   lists.

use bench_tests::model::mark::{self, Cached, Lists, Priorities, Record};
use bench_tests::model::{layers, min, Bundle};
use bench_tests::plain;
use bench_tests::report::differs;
use bench_tests::rng::Rng;
use bench_tests::small::{arrangements, held_sets, lists, sizes};
use bench_tests::traces::{any, any_parked, sizes as drawn_sizes};
use std::collections::{BTreeMap, BTreeSet, HashMap, HashSet};

const PAGES: u32 = 4;

/// The rules of priorities, with their names.
const RULES: [(&str, Priorities); 5] = [
    ("RDM", mark::rdm),
    ("all equal", |_, _, _| 7),
    ("the page's number", |_, _, page| page as u64),
    ("falling time", |t, _, _| u64::MAX - t as u64),
    ("falling time from L0", |_, t0, _| u64::MAX - t0 as u64),
];

fn show(k: u32, a: u32, rule: &str, trace: &[u32]) -> Vec<(&'static str, String)> {
    vec![
        ("k, a", format!("{} {}", k, a)),
        ("priorities", rule.to_string()),
        ("trace", format!("{:?}", trace)),
    ]
}

/// For k, a and each small trace the sets that MIN may hold after it, and its count.
type Known = HashMap<(u32, u32, Vec<u32>), (HashSet<BTreeSet<u32>>, usize)>;

/// What MIN may hold and its count, after every trace of up to so many requests.
fn known(requests: usize) -> Known {
    let continuations = arrangements(PAGES);
    let mut out = HashMap::new();
    for trace in lists(PAGES, requests) {
        for (k, a) in sizes() {
            let count = min::run(k, a, &trace).expect("k and a are sound").bundles.len();
            let sets = held_sets(k, a, &trace, &continuations);
            out.insert((k, a, trace.clone()), (sets, count));
        }
    }
    out
}

/// A past request: its page, t after it, and whether the page was in L0 before it.
type Past = (u32, u32, bool);

/// The requested page's place among what MIN may hold, put behind the past requests.
fn clock(past: &mut Vec<Past>, page: u32, sets: &HashSet<BTreeSet<u32>>) {
    let revealed = sets.iter().all(|set| set.contains(&page));
    let from_below = !sets.iter().any(|set| set.contains(&page));
    let t = past.last().map_or(0, |request| request.1);
    past.push((page, t + u32::from(!revealed), from_below));
}

/// t now, and t at the page's last request from L0.
fn times(past: &[Past], page: u32) -> (u32, u32) {
    let last = past.iter().rev().find(|request| request.0 == page && request.2);
    (past[past.len() - 1].1, last.expect("the first request is from L0").1)
}

/// The bundles of a trace, worked out from MIN: `known` has what it may hold before each request.
fn second_way(known: &Known, rule: Priorities, k: u32, a: u32, trace: &[u32]) -> Vec<Bundle> {
    let mut cached: Vec<(bool, u64, u32)> = Vec::new();
    let (mut past, mut bundles) = (Vec::new(), Vec::new());
    for (n, &page) in trace.iter().enumerate() {
        let (sets, count) = &known[&(k, a, trace[..n].to_vec())];
        clock(&mut past, page, sets);
        let (t, t0) = times(&past, page);
        let best = min::run(k, a, &trace[..=n]).expect("k and a are sound").bundles.len();
        if best > *count {
            cached.iter_mut().for_each(|row| row.0 = false);
        }
        let held = cached.iter().any(|row| row.2 == page);
        if !held && cached.len() == k as usize {
            cached.sort_unstable();
            let bundle = cached.drain(..a as usize).map(|row| row.2).collect();
            bundles.push((n as u32, bundle));
        }
        cached.retain(|row| row.2 != page);
        cached.push((true, rule(t, t0, page), page));
    }
    bundles
}

/// What the bundles of a trace show: how many took a marked page, how many an unmarked one before a marked one of
/// lower priority, and how many told equal priorities by page.
#[derive(Default)]
struct Shown {
    bundles: usize,
    marked: usize,
    against_priority: usize,
    by_page: usize,
}

impl Shown {
    /// Looks at a bundle beside the cache that it was taken from, with the marks as they are then.
    fn look(&mut self, before: &BTreeMap<u32, Cached>, bundle: &[u32]) {
        let rows: Vec<(Cached, u32)> = bundle.iter().map(|page| (before[page], *page)).collect();
        let pairs = || rows.windows(2);
        let left = before.iter().filter(|(page, _)| !bundle.contains(page));
        let last = rows.last().copied();
        self.bundles += 1;
        self.marked += usize::from(rows.iter().any(|row| row.0.marked));
        self.against_priority += usize::from(
            pairs().any(|pair| pair[0].0.priority > pair[1].0.priority)
                || left.clone().any(|(_, beside)| last.map_or(false, |row| beside.priority < row.0.priority)),
        );
        self.by_page += usize::from(
            pairs().any(|pair| pair[0].0 == pair[1].0)
                || left.clone().any(|(_, beside)| last.map_or(false, |row| *beside == row.0)),
        );
    }

    /// Serves a trace and looks at each bundle.
    fn walk(&mut self, rule: Priorities, k: u32, a: u32, trace: &[u32]) {
        let mut state = mark::State::empty(k, a);
        for &page in trace {
            let mut before = state.cached.clone();
            let joins = layers::number_of(&state.layers, page) == 0 && state.layers.len() == k as usize;
            before.values_mut().for_each(|beside| beside.marked &= !joins);
            match state.serve(rule, page) {
                Some(bundle) if !bundle.is_empty() => self.look(&before, &bundle),
                _ => {}
            }
        }
    }

    /// Prints the counts; ends the program if one is 0, for then nothing was tested about it.
    fn print(&self, what: &str) {
        let Shown { bundles, marked, against_priority, by_page } = *self;
        if [marked, against_priority, by_page].contains(&0) {
            differs(what, &[], &"bundles of each kind", &(bundles, marked, against_priority, by_page));
        }
        println!(
            "marking: {}: {} bundles, {} with marked pages, {} with a mark against a priority, {} told by page",
            what, bundles, marked, against_priority, by_page
        );
    }
}

/// Every trace of up to 6 requests a second way.
fn all_a_second_way() {
    let known = known(5);
    let mut shown = Shown::default();
    let mut tried = 0;
    for trace in lists(PAGES, 6) {
        for (k, a) in sizes() {
            for (name, rule) in RULES {
                let run = mark::run(rule, k, a, &trace).expect("k and a are sound");
                let due = second_way(&known, rule, k, a, &trace);
                if run.bundles != due {
                    differs("marking a second way", &show(k, a, name, &trace), &due, &run.bundles);
                }
                shown.walk(rule, k, a, &trace);
                tried += 1;
            }
        }
    }
    println!("marking: {} traces with k, a and a rule of priorities agree with a second way", tried);
    shown.print("all rules of priorities");
}

/// Ends the program if marking makes more bundles than the factor allows, with some rule of priorities. Counts in
/// `met` how often it makes exactly as many and more than one, for each rule.
fn check_factor(k: u32, a: u32, trace: &[u32], met: &mut [usize]) {
    let best = min::run(k, a, trace).expect("k and a are sound").bundles.len();
    let layered = layers::run(k, a, trace).expect("k and a are sound").record.evictions as usize;
    for ((name, rule), met) in RULES.iter().zip(met) {
        let bundles = mark::run(*rule, k, a, trace).expect("k and a are sound").bundles.len();
        let factor = ((k + a - 1) / a) as usize;
        if bundles > factor * best || bundles > factor * layered {
            let input = show(k, a, name, trace);
            differs("marking and the factor", &input, &(factor, best, layered), &bundles);
        }
        *met += usize::from(bundles > best && bundles == factor * best);
    }
}

/// The lists of a request.
#[derive(Clone, Debug, PartialEq)]
struct Owned {
    cached: [Vec<u32>; 2],
    priorities: Vec<u64>,
    evicted: Vec<u32>,
    table: [Vec<u32>; 3],
}

impl Owned {
    fn new(k: u32, a: u32, places: usize) -> Self {
        Owned {
            cached: [vec![0; k as usize], vec![0; k as usize]],
            priorities: vec![0; k as usize],
            evicted: vec![0; a as usize],
            table: [vec![0; places], vec![0; places], vec![0; places]],
        }
    }

    fn lists(&mut self) -> Lists<'_> {
        let ([cache, marks], [pages, numbers, times]) = (&mut self.cached, &mut self.table);
        let (priorities, evicted) = (&mut self.priorities, &mut self.evicted);
        Lists { cache, marks, priorities, evicted, pages, numbers, times }
    }
}

/// The plain version over a trace beside the model.
fn check_plain(k: u32, a: u32, trace: &[u32]) {
    let [mut pages, mut numbers, mut times] = [(); 3].map(|_| vec![0; trace.len()]);
    let run = mark::over_trace(k, a, trace, &mut pages, &mut numbers, &mut times).expect("it is sound");
    let due = (run.bundles.len() as u32, run.state.record.loads, pages, numbers, times);
    let (bundles, loads, mut table, mut times) = plain::mark::run(k, a, trace);
    for list in [&mut table.pages, &mut table.numbers, &mut times] {
        list.resize(trace.len(), 0);
    }
    let got = (bundles, loads, table.pages, table.numbers, times);
    if got != due {
        differs("the plain version of marking", &show(k, a, "RDM", trace), &due, &got);
    }
}

/// Single plain requests beside the model's, on a table that is at times too small.
fn check_plain_requests(k: u32, a: u32, trace: &[u32], places: usize) {
    let mut record = Record::empty(k, a);
    let mut count = 0;
    let (mut ours, mut theirs) = (Owned::new(k, a, places), Owned::new(k, a, places));
    for &page in trace {
        let due = mark::request(&record, count, &mut theirs.lists(), page)
            .map(|served| (served.record, served.count, served.answer));
        let got = plain::mark_request::request(&record, count, &mut ours.lists(), page);
        if due != got || ours != theirs {
            let input = show(k, a, "RDM", trace);
            differs("a plain request", &input, &(&due, &theirs), &(&got, &ours));
        }
        if let Ok((next, held, _)) = due {
            (record, count) = (next, held);
        }
    }
}

/// The factor and the plain version on all small and on drawn traces.
fn counts() {
    let mut met = [0; RULES.len()];
    let mut tried = 0;
    for trace in lists(PAGES, 7) {
        for (k, a) in sizes() {
            check_factor(k, a, &trace, &mut met);
            check_plain(k, a, &trace);
            tried += 1;
        }
    }
    let mut rng = Rng::new(10);
    let mut shown = Shown::default();
    for turn in 0..6_000 {
        let (k, a) = drawn_sizes(&mut rng);
        let n = if turn % 20 == 0 { rng.between(200, 3_000) } else { rng.between(0, 200) };
        let draw = if turn % 4 == 0 { any_parked } else { any };
        let trace = draw(k, a, n, &mut rng);
        check_factor(k, a, &trace, &mut met);
        check_plain(k, a, &trace);
        if turn % 8 == 0 {
            let places = rng.pick(&[n, n / 2, k as usize]);
            check_plain_requests(k, a, &trace[..n.min(200)], places);
            shown.walk(mark::rdm, k, a, &trace);
        }
        tried += 1;
    }
    println!("marking: {} traces with k, a are within the factor of the best count, with each rule", tried);
    for ((name, _), met) in RULES.iter().zip(met) {
        println!("marking: priorities {}: the factor is met exactly on {} of them", name, met);
    }
    shown.print("RDM on drawn traces");
}

fn main() {
    all_a_second_way();
    counts();
}
