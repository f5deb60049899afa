//! Compares the second implementation with brute force, so that it may be believed. k is 1 to 4.
//!
//! - On every trace of up to 6 requests for 4 pages, the least cost of all legal schedules is found from the
//!   cheapest way to hold each set of pages after each request, one page that is only fetched ahead
//!   included. MIN's count and the layers' count are that cost. LRU's count and oldest load's are each at most
//!   k/a, rounded up, times MIN's and times the layers'; on some traces LRU's is the lower, on some the other.
//!   Each of MIN's bundles takes the pages that leave first, in the order that Req 07 gives, read off the trace:
//!   some of them by neither page number nor load.
//! - On those of up to 5 requests, each set is answered possible exactly if MIN holds it for some
//!   continuation without repeats; on those of up to 3, for some continuation of up to 4 requests as well.
//!   One more request lifts its page exactly if MIN may hold it, else joins exactly if the least cost rises.
//! - On every file of up to two entries for traces of up to 3 requests, with k up to 2, the judge answers a
//!   cost exactly if the entries are legal by document 01's paragraph, and that cost: for every way to write
//!   the trace in RQs and RRs.

use bench_tests::model::fifo::Fifo;
use bench_tests::model::files::{schedule_file, trace_of, Asked, Entry};
use bench_tests::model::layers::{self, Layers, Possible, Rule};
use bench_tests::model::lru::Lru;
use bench_tests::model::queue::{self, Policy};
use bench_tests::model::{judge, min};
use bench_tests::orders::{against, Against};
use bench_tests::report::differs;
use bench_tests::small::{arrangements, held_sets, lists, sizes};
use bench_tests::traces::every_edition;
use std::cmp::Ordering;
use std::collections::{BTreeSet, HashSet};

/// Pages are 0 to 3; page 4 is never requested, but may be fetched ahead. A buffer is a set of bits.
const PAGES: u32 = 4;
const BUFFERS: usize = 32;
const NEVER: u32 = u32::MAX;

/// The least cost at which each buffer can be held.
type Costs = [u32; BUFFERS];

/// One EV after another, until no buffer becomes cheaper.
fn evictions(costs: &mut Costs, a: u32) {
    // An EV only takes pages out, so falling order meets each buffer after all that lead to it.
    for buffer in (0..BUFFERS).rev().filter(|&b| b != 0) {
        let cost = costs[buffer];
        let parts = (1..=buffer).filter(|part| part & !buffer == 0 && part.count_ones() <= a);
        for part in parts.filter(|_| cost != NEVER) {
            costs[buffer & !part] = costs[buffer & !part].min(cost + 1);
        }
    }
}

/// One PF after another.
fn fetches(costs: &mut Costs) {
    for buffer in 0..BUFFERS {
        for page in (0..=PAGES).map(|page| 1 << page).filter(|page| buffer & page == 0) {
            costs[buffer | page] = costs[buffer | page].min(costs[buffer]);
        }
    }
}

/// The request: its page is added, and at most k pages may be held.
fn closed(costs: &Costs, page: u32, k: u32) -> Costs {
    let mut after = [NEVER; BUFFERS];
    for (buffer, &cost) in costs.iter().enumerate() {
        let held = buffer | 1 << page;
        if held.count_ones() <= k {
            after[held] = after[held].min(cost);
        }
    }
    after
}

/// The least cost of a legal schedule of a trace.
fn least_cost(k: u32, a: u32, trace: &[u32]) -> u32 {
    let mut costs = [NEVER; BUFFERS];
    costs[0] = 0;
    for &page in trace {
        evictions(&mut costs, a);
        fetches(&mut costs);
        costs = closed(&costs, page, k);
    }
    costs.iter().copied().min().unwrap_or(NEVER)
}

fn show(k: u32, a: u32, trace: &[u32]) -> Vec<(&'static str, String)> {
    vec![("k, a", format!("{} {}", k, a)), ("trace", format!("{:?}", trace))]
}

/// A policy's bundles, which are at most k/a, rounded up, times each of the counts.
fn within_factor<P: Policy>(policy: &str, k: u32, a: u32, trace: &[u32], counts: [u32; 2]) -> usize {
    let bundles = queue::run::<P>(k, a, trace).expect("k and a are sound").bundles.len();
    for (whose, count) in ["MIN's", "the layers'"].iter().zip(counts) {
        let most = ((k + a - 1) / a * count) as usize;
        if bundles > most {
            let test = format!("the factor of {} and {} count", policy, whose);
            differs(&test, &show(k, a, trace), &most, &bundles);
        }
    }
    bundles
}

/// Checks all counts of a trace, and gives how LRU's is to oldest load's.
fn check_counts(k: u32, a: u32, trace: &[u32]) -> Ordering {
    let least = least_cost(k, a, trace);
    let best = min::run(k, a, trace).expect("k and a are sound").bundles.len() as u32;
    if best != least {
        differs("MIN's count is the least", &show(k, a, trace), &least, &best);
    }
    let layered = layers::run(k, a, trace).expect("k and a are sound").record.evictions;
    if layered != least {
        differs("the layers count MIN's bundles", &show(k, a, trace), &least, &layered);
    }
    let recent = within_factor::<Lru>("LRU", k, a, trace, [best, layered]);
    let oldest = within_factor::<Fifo>("oldest load", k, a, trace, [best, layered]);
    recent.cmp(&oldest)
}

/// Whether p leaves before q at request t: pages never requested again before the others and from the least
/// recently requested on, the others from the farthest next request on.
fn leaves_before(trace: &[u32], t: usize, p: u32, q: u32) -> bool {
    let last = |page| trace[..t].iter().rposition(|&other| other == page);
    let next = |page| trace[t + 1..].iter().position(|&other| other == page);
    match (next(p), next(q)) {
        (None, None) => last(p) < last(q),
        (None, Some(_)) => true,
        (Some(_), None) => false,
        (Some(near), Some(nearer)) => near > nearer,
    }
}

/// Checks that each bundle has the pages that leave first, in their order; gives how many bundles there are.
fn check_order(k: u32, a: u32, trace: &[u32], found: &mut Against) -> usize {
    let run = min::run(k, a, trace).expect("k and a are sound");
    let mut bundles = run.bundles.iter().peekable();
    let mut held = BTreeSet::new();
    for (t, &page) in trace.iter().enumerate() {
        if let Some((_, bundle)) = bundles.next_if(|bundle| bundle.0 as usize == t) {
            let mut due: Vec<u32> = held.iter().copied().collect();
            due.sort_by(|&p, &q| leaves_before(trace, t, q, p).cmp(&leaves_before(trace, t, p, q)));
            due.truncate(a as usize);
            if *bundle != due {
                differs("MIN's bundle", &show(k, a, trace), &(t, due), &(t, bundle));
            }
            held.retain(|other| !bundle.contains(other));
        }
        held.insert(page);
    }
    let Against { numbers, loads } = against(trace, &run.bundles);
    found.numbers += numbers;
    found.loads += loads;
    run.bundles.len()
}

/// The possible sets after a trace, and the layer rule of one more request.
fn check_sets(k: u32, a: u32, trace: &[u32], continuations: &[Vec<u32>]) {
    let held = held_sets(k, a, trace, continuations);
    let layers = layers::run(k, a, trace).expect("k and a are sound").layers;
    for bits in 0..BUFFERS {
        let set: BTreeSet<u32> = (0..=PAGES).filter(|page| bits & (1 << page) != 0).collect();
        let answer = layers::possible_of(&layers, &set);
        if (answer == Possible::Yes) != held.contains(&set) {
            let mut input = show(k, a, trace);
            input.push(("set", format!("{:?}", set)));
            differs("possible sets", &input, &held.contains(&set), &answer);
        }
    }
    check_rules(k, a, trace, &held, &layers);
}

/// Which layer rule one more request has, from the sets that MIN may hold before it and from the least cost.
fn check_rules(k: u32, a: u32, trace: &[u32], held: &HashSet<BTreeSet<u32>>, layers: &Layers) {
    let cost = least_cost(k, a, trace);
    for page in 0..PAGES {
        let longer = [trace, &[page]].concat();
        let due = if held.iter().any(|set| set.contains(&page)) {
            Rule::Lift
        } else if least_cost(k, a, &longer) > cost {
            Rule::Join
        } else {
            Rule::Append
        };
        let rule = layers::serve(k, a, &mut layers.clone(), page);
        if rule != due {
            differs("the rule of the last request", &show(k, a, &longer), &due, &rule);
        }
    }
}

/// Every EV and PF that a file may name for n requests, pages 0 to 2 and n up to 2, wrong ones too.
fn all_entries(n: u32) -> Vec<Entry> {
    let mut out = Vec::new();
    for t in 0..=n {
        out.extend((0..3).map(|page| Entry::Pf { t, page }));
        let pages = lists(3, 2).into_iter().filter(|list| !list.is_empty());
        out.extend(pages.map(|pages| Entry::Ev { t, pages }));
    }
    out
}

/// Whether a list of entries is legal, by document 01's paragraph alone, and its cost.
fn legal_cost(k: u32, a: u32, trace: &[u32], entries: &[Entry]) -> Option<u32> {
    let mut left = entries;
    let mut held = BTreeSet::new();
    let mut cost = 0;
    for (now, &requested) in (0..).zip(trace) {
        while let [Entry::Ev { t, pages }, rest @ ..] = left {
            let different = pages.iter().collect::<BTreeSet<_>>().len() == pages.len();
            if *t != now || !different || pages.len() > a as usize || pages.iter().any(|p| !held.remove(p)) {
                break;
            }
            cost += 1;
            left = rest;
        }
        while let [Entry::Pf { t, page }, rest @ ..] = left {
            if *t != now || !held.insert(*page) {
                break;
            }
            left = rest;
        }
        held.insert(requested);
        if held.len() > k as usize {
            return None;
        }
    }
    if left.is_empty() {
        Some(cost)
    } else {
        None
    }
}

/// Judges a schedule beside every edition of a trace; the number of them.
fn check_files(k: u32, a: u32, trace: &[u32], editions: &[Vec<Asked>], entries: &[Entry]) -> usize {
    let schedule = schedule_file(k, a, entries);
    let legal = legal_cost(k, a, trace, entries);
    for edition in editions {
        let judged = judge::judge(&trace_of(k, a, edition), &schedule).ok();
        if judged != legal {
            let mut input = show(k, a, trace);
            input.push(("records", format!("{:?}", edition)));
            input.push(("entries", format!("{:?}", entries)));
            differs("the judge accepts the legal schedules", &input, &legal, &judged);
        }
    }
    editions.len()
}

/// Files of up to two entries for traces of up to three requests; the number tried.
fn try_files() -> usize {
    let mut tried = 0;
    for trace in lists(2, 3) {
        let choices = all_entries(trace.len() as u32);
        let editions = every_edition(&trace);
        for (k, a) in [(1, 1), (2, 1), (2, 2)] {
            tried += check_files(k, a, &trace, &editions, &[]);
            for first in &choices {
                tried += check_files(k, a, &trace, &editions, std::slice::from_ref(first));
                for second in &choices {
                    let both = [first.clone(), second.clone()];
                    tried += check_files(k, a, &trace, &editions, &both);
                }
            }
        }
    }
    tried
}

/// Ends the program unless each of the two policies made fewer bundles than the other on some trace: a model
/// of oldest load in which a hit moved the page would be LRU's, and would pass every other check here.
fn both_ways(recent_lower: usize, oldest_lower: usize) {
    if recent_lower == 0 || oldest_lower == 0 {
        differs(
            "LRU and oldest load",
            &[],
            &"each is the lower on some trace",
            &(recent_lower, oldest_lower),
        );
    }
    println!(
        "all schedules: LRU makes fewer bundles than oldest load on {} of them, more on {}",
        recent_lower, oldest_lower
    );
}

/// Ends the program unless some bundles tell age from number, and some from load.
fn all_orders(bundles: usize, Against { numbers, loads }: Against) {
    if numbers == 0 || loads == 0 {
        differs("MIN's bundles", &[], &"some stand against numbers, some against loads", &(numbers, loads));
    }
    println!(
        "all schedules: {} bundles of MIN in their order, {} against page numbers, {} against loads",
        bundles, numbers, loads
    );
}

fn main() {
    let sizes = sizes();
    let continuations = arrangements(PAGES);
    let repeating = lists(PAGES, 4);
    let (mut counts, mut sets) = (0, 0);
    let (mut recent_lower, mut oldest_lower) = (0, 0);
    let (mut bundles, mut found) = (0, Against::default());
    for trace in lists(PAGES, 6) {
        for &(k, a) in &sizes {
            match check_counts(k, a, &trace) {
                Ordering::Less => recent_lower += 1,
                Ordering::Greater => oldest_lower += 1,
                Ordering::Equal => {}
            }
            counts += 1;
            bundles += check_order(k, a, &trace, &mut found);
            if trace.len() <= 5 {
                check_sets(k, a, &trace, &continuations);
                sets += 1;
            }
            if trace.len() <= 3 {
                check_sets(k, a, &trace, &repeating);
            }
        }
    }
    println!("all schedules: {} traces with k, a agree on counts, {} on possible sets", counts, sets);
    both_ways(recent_lower, oldest_lower);
    all_orders(bundles, found);
    println!("all schedules: {} pairs of files judged as document 01's legal schedules", try_files());
}
