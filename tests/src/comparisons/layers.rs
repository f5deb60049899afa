//! Requests to the layers, and the questions on them.

use super::{all_met, break_state, due, SOUND};
use crate::calls::layers::{PossibleSet, Request, Revealed, State};
use crate::calls::{Lent, Reached};
use crate::model::layers::Record;
use crate::report::differs;
use crate::rng::Rng;
use crate::states::layers::{all_counters, all_small, drawn, wide, Draft, FAULTS};
use crate::states::{border_sizes, end_page};
use crate::traces::{any, sizes};

/// A set with about as many pages as there are layers: of the table, and others, at times one twice.
fn any_set(state: &State, rng: &mut Rng) -> Vec<u32> {
    let held = state.pages.list();
    let count = state.record.s.min(300) as usize + rng.pick(&[0, 0, 0, 0, 1]);
    let first = rng.below(held.len() + 1);
    let mut set: Vec<u32> = (0..count)
        .map(|place| match held.iter().rev().nth((first + place) % held.len().max(1)) {
            Some(&page) if !rng.once_in(6) => page,
            _ => rng.below(20) as u32,
        })
        .collect();
    set.sort_unstable();
    if !rng.once_in(8) {
        set.dedup();
    }
    if rng.once_in(2) {
        set.reverse();
    }
    set
}

/// Both questions on a state.
fn ask(reached: &mut Reached, state: &State, set: Vec<u32>) -> [u32; 2] {
    let (_, revealed) = reached.compare(&Revealed(state.clone()));
    let (_, possible) = reached.compare(&PossibleSet { state: state.clone(), set });
    [revealed.refusal, possible.refusal]
}

/// A request and both questions on a state.
fn every_call(reached: &mut Reached, draft: &Draft, rng: &mut Rng) {
    let state = draft.state();
    let set = any_set(&state, rng);
    ask(reached, &state, set);
    reached.compare(&Request { state, page: draft.page });
}

/// Lists of requests and questions, from the empty record and an unused table on, at times too small.
fn walks(reached: &mut Reached, rng: &mut Rng) {
    for _ in 0..200 {
        let (k, a) = sizes(rng);
        let places = rng.pick(&[0, 1, k as usize, k as usize + 5, 200, 210]);
        let unused = Lent::new(&vec![0; places]);
        let state = State { record: Record::empty(k, a), pages: unused.clone(), numbers: unused };
        let mut call = Request { state, page: 0 };
        for page in any(k, a, 150, rng) {
            call.page = page;
            let (mut left, answer) = reached.compare(&call);
            left.go_on(&answer);
            call = left;
            let set = any_set(&call.state, rng);
            ask(reached, &call.state, set);
        }
    }
}

fn faults(reached: &mut Reached, rng: &mut Rng) {
    let mut alone = [0; FAULTS.len()];
    for (k, a) in SOUND {
        for requests in [0, 1, 2, k as usize, 2 * k as usize, 3 * k as usize] {
            let sound = Draft::reached(k, a, requests, rng);
            break_state(&sound, &FAULTS, &mut alone, |draft, expected| {
                let state = draft.state();
                let (_, answer) = reached.compare(&Request { state: state.clone(), page: draft.page });
                due("layers_request", draft, expected, answer.refusal);
                let asked = ask(reached, &state, (0..draft.record.s.min(300)).collect());
                let of_state = expected.map(|refusal| if refusal < 10 { refusal } else { 0 });
                for refusal in asked {
                    due("a question", draft, of_state, refusal);
                }
                reached.compare(&PossibleSet { state, set: vec![4, 4] });
            });
        }
    }
    all_met("layers_request", &FAULTS, &alone);
}

const FULL: u32 = u32::MAX;

/// Requests, evictions, appends, joins and lifts at the ends of their ranges: sound ones first, then some
/// whose counts add up to 2^32 or more, in all but the last to requests modulo 2^32.
const COUNTERS: [[u32; 5]; 11] = [
    [0, 0, 0, 0, 0],
    [FULL - 1, FULL - 1, 0, FULL - 1, 0],
    [FULL - 1, 0, FULL - 1, 0, 0],
    [FULL - 1, 0, 0, 0, FULL - 1],
    [FULL, 4, FULL - 9, 4, 5],
    [FULL, FULL, 0, FULL, 0],
    [3, 4, FULL, 4, 0],
    [0, 0, FULL, 0, 1],
    [0, 0, FULL, 1, 0],
    [FULL - 1, 1, FULL, 1, FULL - 1],
    [FULL, FULL, FULL, FULL, FULL],
];

/// k and a, counters, s and pages at the ends of their ranges, on tables without a used place and with the
/// layers of k different pages.
fn borders(reached: &mut Reached, rng: &mut Rng) {
    for (k, a) in border_sizes() {
        for [requests, evictions, appends, joins, lifts] in COUNTERS {
            for s in [0, 1, k.wrapping_sub(1), k, k.wrapping_add(1), u32::MAX] {
                for spare in [0, 1, 2] {
                    let record = Record { k, a, requests, evictions, s, appends, joins, lifts };
                    let mut pages: Vec<u32> = (0..s.min(258) as usize).map(end_page).collect();
                    pages.reverse();
                    let rows = (1..).zip(pages).collect();
                    let page = rng.pick(&[0, 1, u32::MAX, 9]);
                    every_call(reached, &Draft { record, rows, spare, short: [0, 0], page }, rng);
                }
            }
        }
    }
}

/// Every set of the pages 0 to 5 after traces of few pages, each in rising or falling order.
fn all_sets(reached: &mut Reached, rng: &mut Rng) {
    for _ in 0..300 {
        let k = rng.between(1, 5);
        let a = rng.between(1, k) as u32;
        let trace: Vec<u32> = (0..rng.below(12)).map(|_| rng.below(6) as u32).collect();
        let state = Draft::after(k as u32, a, &trace, rng.below(2)).state();
        for bits in 0..64u32 {
            let mut set: Vec<u32> = (0..6).filter(|page| bits >> page & 1 == 1).collect();
            if rng.once_in(2) {
                set.reverse();
            }
            reached.compare(&PossibleSet { state: state.clone(), set });
        }
    }
}

/// Page `which`, 0 or 1, of a layer of `paired_layers`.
fn paired(number: u32, which: u32) -> u32 {
    2 * number + which
}

/// k layers, of which each but the last has two pages. Page 0 and the largest page are in none.
fn paired_layers(k: u32) -> State {
    let record = Record { k, a: 1, requests: 3 * k, evictions: k, s: k, appends: k, joins: k, lifts: k };
    let row = |number: u32, which| (number, paired(number, which));
    let rows = (1..=k).flat_map(|number| (0..=u32::from(number < k)).map(move |which| row(number, which)));
    Draft { record, rows: rows.collect(), spare: 1, short: [0, 0], page: 0 }.state()
}

/// A page of each of these layers but `left`, and one page more, of layer i or, for i = 0, of none. So these
/// are k pages, of which L0 to Lj have j + 1 for each j from i to left - 1, and j for any other.
fn set_broken_from(k: u32, i: u32, left: u32, rng: &mut Rng) -> Vec<u32> {
    let more = if i > 0 { paired(i, 1) } else { rng.pick(&[0, u32::MAX]) };
    let others = (1..=k).filter(|&number| number != left).map(|number| paired(number, 0));
    let mut set: Vec<u32> = others.chain([more]).collect();
    let first = rng.below(set.len());
    set.rotate_left(first);
    set
}

/// Sets that break at each layer first, there alone or at others above it too. How they are made says which
/// layer is due.
fn lowest_layers(reached: &mut Reached, rng: &mut Rng) {
    for k in [1, 2, 3, 8, 256] {
        let state = paired_layers(k);
        let step = if k < 256 { 1 } else { 85 };
        for i in 0..k {
            for left in (i + 1..k).step_by(step).chain([k]) {
                let call = PossibleSet { state: state.clone(), set: set_broken_from(k, i, left, rng) };
                let (_, answer) = reached.compare(&call);
                let named = PossibleSet::breaks_at(i, (left - i) as usize);
                if answer != named {
                    differs("the lowest layer", &[("call", format!("{:?}", call))], &named, &answer);
                }
            }
        }
    }
}

/// Wide tables and long sets, around each length at which the look for repeated pages changes its way.
fn wide_tables(reached: &mut Reached, rng: &mut Rng) {
    for (around, times) in [(256, 1_000), (4_096, 100), (65_536, 12)] {
        for _ in 0..times {
            let used = around - 3 + rng.below(7);
            every_call(reached, &wide(used, rng), rng);
            let mut set: Vec<u32> = (0..used as u32).map(|page| page.wrapping_mul(2_654_435_761)).collect();
            if rng.once_in(2) {
                set[rng.below(used)] = set[rng.below(used)];
            }
            let state = Draft::after(3, 2, &[1, 2, 3, 4], 0).state();
            reached.compare(&PossibleSet { state, set });
        }
    }
}

pub fn all(reached: &mut Reached, rng: &mut Rng) {
    walks(reached, rng);
    faults(reached, rng);
    borders(reached, rng);
    all_sets(reached, rng);
    lowest_layers(reached, rng);
    wide_tables(reached, rng);
    let mut turn = 0;
    all_small(|draft| {
        turn += 1;
        let state = draft.state();
        ask(reached, &state, (0..3).filter(|page| turn >> page & 1 == 1).collect());
        reached.compare(&Request { state, page: turn % 4 });
    });
    all_counters(|draft| every_call(reached, draft, rng));
    for _ in 0..60_000 {
        every_call(reached, &drawn(rng), rng);
    }
}
