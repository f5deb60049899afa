//! Requests to marking.

use super::{all_met, break_state, due, SOUND};
use crate::calls::mark::{OverTrace, Request};
use crate::calls::{Call, Lent, Reached};
use crate::model::mark::Record;
use crate::report::differs;
use crate::rng::Rng;
use crate::states::mark::{all_small, drawn, wide, Draft};
use crate::states::mark_faults::{FAULTS, NOT_JUDGED};
use crate::states::{border_sizes, end_page, layers};
use crate::traces::{any, any_parked, sizes};

/// Lists of requests, from the empty record and an unused table on, at times too small. What an accepted
/// request left is never 9. Where none was refused, the whole trace leaves the same table.
fn walks(reached: &mut Reached, rng: &mut Rng) {
    for turn in 0..300 {
        let (k, a) = sizes(rng);
        let places = rng.pick(&[0, 1, k as usize, k as usize + 5, 200, 210]);
        let draw = if turn % 3 == 0 { any_parked } else { any };
        let trace = draw(k, a, 200, rng);
        let mut call = Draft::after(k, a, &[], places, rng).request();
        let mut refused = false;
        for &page in &trace {
            call.page = page;
            call.evicted = Lent::new(&vec![3; a as usize + rng.below(3) - usize::from(rng.once_in(300))]);
            let (mut left, answer) = reached.compare(&call);
            if answer.refusal == 9 {
                differs(Request::NAME, &[("call", format!("{:?}", call))], &"not 9", &answer);
            }
            refused |= answer.refusal > 0;
            left.go_on(&answer);
            call = left;
        }
        if !refused {
            whole(reached, &call, trace, places);
        }
    }
}

/// The whole trace beside the state that its requests led to.
fn whole(reached: &mut Reached, call: &Request, trace: Vec<u32>, places: usize) {
    let Record { k, a, loads, evictions, .. } = call.record;
    let unused = Lent::new(&vec![0; places]);
    let over = OverTrace { k, a, trace, pages: unused.clone(), numbers: unused.clone(), times: unused };
    let (left, answer) = reached.compare(&over);
    let one_by_one =
        (vec![0, u64::from(evictions), u64::from(loads)], &call.pages, &call.numbers, &call.times);
    let at_once = (answer.fields, &left.pages, &left.numbers, &left.times);
    if one_by_one != at_once {
        differs(OverTrace::NAME, &[("call", format!("{:?}", over))], &one_by_one, &at_once);
    }
}

/// States that requests reach with each condition broken, the layers' own ones too, and with what no
/// condition speaks of.
fn faults(reached: &mut Reached, rng: &mut Rng) {
    let (mut alone, mut layers_alone) = ([0; FAULTS.len()], [0; layers::FAULTS.len()]);
    let mut spared = [0; NOT_JUDGED.len()];
    for (k, a) in SOUND {
        for requests in [0, 1, 2, k as usize, 2 * k as usize, 2 * k as usize + 3] {
            let sound = Draft::reached(k, a, requests, rng);
            let (_, answer) = reached.compare(&sound.request());
            break_state(&sound, &FAULTS, &mut alone, |draft, expected| {
                let (_, answer) = reached.compare(&draft.request());
                due(Request::NAME, draft, expected, answer.refusal);
            });
            break_layers(reached, &sound, &mut layers_alone);
            break_state(&sound, &NOT_JUDGED, &mut spared, |draft, _| {
                let (_, spared) = reached.compare(&draft.request());
                due(Request::NAME, draft, Some(answer.refusal), spared.refusal);
            });
        }
    }
    all_met(Request::NAME, &FAULTS, &alone);
    all_met(Request::NAME, &layers::FAULTS, &layers_alone);
    all_met(Request::NAME, &NOT_JUDGED, &spared);
}

/// The layers' own faults: in their record alone, where another k, a or request count is 9, and in both
/// records.
fn break_layers(reached: &mut Reached, sound: &Draft, alone: &mut [usize]) {
    for (place, fault) in layers::FAULTS.iter().enumerate() {
        let mut broken = sound.clone();
        if !(fault.apply)(&mut broken.layers) {
            continue;
        }
        alone[place] += 1;
        let (own, inner) = (&broken.record, &broken.layers.record);
        let one = (own.k, own.a, own.requests) == (inner.k, inner.a, inner.requests);
        let (_, answer) = reached.compare(&broken.request());
        due(Request::NAME, &broken, Some(if one { fault.refusal } else { 9 }), answer.refusal);
        broken.as_layers();
        let (_, answer) = reached.compare(&broken.request());
        due(Request::NAME, &broken, Some(fault.refusal), answer.refusal);
    }
}

const FULL: u32 = u32::MAX;

/// Requests, loads, evictions, t, and the layers' evictions, appends and lifts, which have the rest of the
/// requests.
const COUNTERS: [[u32; 7]; 7] = [
    [0, 0, 0, 0, 0, 0, 0],
    [FULL - 1, FULL - 1, FULL - 1, FULL - 1, 0, 1, FULL - 2],
    [FULL - 1, 0, 0, FULL - 1, FULL - 1, 0, 0],
    [FULL, FULL, FULL, FULL, 1, FULL - 1, 0],
    [FULL - 1, FULL, 0, 0, 0, FULL - 1, 0],
    [FULL - 1, 3, 0, FULL, 0, 0, FULL - 1],
    [5, 4, 3, 2, 1, 2, 2],
];

/// k and a, counters, counts and pages at the ends of their ranges, on tables without a used place and with
/// the layers of k different pages.
fn borders(reached: &mut Reached, rng: &mut Rng) {
    for (k, a) in border_sizes() {
        for [requests, loads, evictions, t, joins, appends, lifts] in COUNTERS {
            for count in [0, 1, k / 2, k, k.wrapping_add(1), FULL] {
                let mut draft = Draft::after(1, 1, &[], rng.below(3), rng);
                let s = rng.pick(&[0, k.min(258)]);
                draft.layers.rows = (1..=s).map(|number| (number, end_page((s - number) as usize))).collect();
                let layers = &mut draft.layers.record;
                (layers.k, layers.a, layers.s, layers.requests) = (k, a, s, requests);
                (layers.evictions, layers.joins) = (joins, joins);
                (layers.appends, layers.lifts) = (appends, lifts);
                draft.as_layers();
                (draft.record.loads, draft.record.evictions, draft.record.t) = (loads, evictions, t);
                draft.t0 = draft.layers.rows.iter().map(|row| (row.1, rng.pick(&[0, t, t / 2]))).collect();
                let places = k.min(258) as usize;
                draft.cache = (0..places).map(end_page).collect();
                draft.cache.sort_unstable();
                draft.marks = (0..places as u32).map(|place| place % 2).collect();
                draft.priorities = (0..places as u64).map(|place| u64::MAX - place / 2).collect();
                draft.evicted = vec![7; a.min(258) as usize];
                draft.count = count;
                draft.layers.page = rng.pick(&[0, 1, FULL, FULL - 1, 9]);
                reached.compare(&draft.request());
            }
        }
    }
}

/// Wide tables, around each length at which the look for repeated pages changes its way.
fn wide_tables(reached: &mut Reached, rng: &mut Rng) {
    for (around, times) in [(256, 600), (4_096, 60), (65_536, 12)] {
        for _ in 0..times {
            let used = around - 3 + rng.below(7);
            reached.compare(&wide(used, rng).request());
        }
    }
}

pub fn all(reached: &mut Reached, rng: &mut Rng) {
    walks(reached, rng);
    faults(reached, rng);
    borders(reached, rng);
    wide_tables(reached, rng);
    all_small(&mut Rng::new(12), |draft| {
        reached.compare(&draft.request());
    });
    for _ in 0..120_000 {
        reached.compare(&drawn(rng).request());
    }
}
