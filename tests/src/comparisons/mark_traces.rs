//! Marking over whole traces.

use crate::calls::mark::OverTrace;
use crate::calls::{Lent, Reached};
use crate::model::TRACE_MAX;
use crate::rng::Rng;
use crate::small::{lists, sizes as small_sizes};
use crate::states::border_sizes;
use crate::traces::{any, any_parked, any_sizes, of_kind, scattered, sizes, KINDS};

/// A trace on an unused table of so many places.
fn on_table(k: u32, a: u32, trace: &[u32], places: usize) -> OverTrace {
    let unused = Lent::new(&vec![0; places]);
    OverTrace { k, a, trace: trace.to_vec(), pages: unused.clone(), numbers: unused.clone(), times: unused }
}

/// The lists of a table, one by one.
const LISTS: [fn(&mut OverTrace) -> &mut Lent<u32>; 3] =
    [|call| &mut call.pages, |call| &mut call.numbers, |call| &mut call.times];

/// Tables with as many places as the layers take at the end, one less, one more and others; each of these
/// with one list a place longer, with a place that is used in one list, the first, the last or a drawn one,
/// and with both.
fn other_tables(reached: &mut Reached, k: u32, a: u32, trace: &[u32], rng: &mut Rng) {
    let (left, _) = reached.compare(&on_table(k, a, trace, trace.len()));
    let most = left.numbers.list().iter().filter(|&&number| number > 0).count();
    for places in [0, most.saturating_sub(1), most, most + 1, rng.below(trace.len() + 1), trace.len() + 1] {
        let equal = on_table(k, a, trace, places);
        reached.compare(&equal);
        for longer in LISTS {
            let mut unequal = equal.clone();
            *longer(&mut unequal) = Lent::new(&vec![0; places + 1]);
            reached.compare(&unequal);
            for used in LISTS {
                for call in [&equal, &unequal] {
                    let mut call = call.clone();
                    let list = used(&mut call).list_mut();
                    let place = rng.pick(&[0, list.len() / 2, list.len().saturating_sub(1)]);
                    list.iter_mut().skip(place).take(1).for_each(|value| *value = 1 + rng.below(3) as u32);
                    reached.compare(&call);
                }
            }
        }
    }
}

/// Short traces, each fourth with every kind of table.
fn short(reached: &mut Reached, rng: &mut Rng) {
    for turn in 0..4_000 {
        let (k, a) = if rng.once_in(4) { any_sizes(rng) } else { sizes(rng) };
        let n = if rng.once_in(20) { rng.between(100, 2_000) } else { rng.between(0, 60) };
        let draw = if turn % 3 == 0 { any_parked } else { any };
        let trace = draw(k.clamp(1, 256), a.clamp(1, 256), n, rng);
        reached.compare(&on_table(k, a, &trace, trace.len()));
        if turn % 4 == 0 {
            other_tables(reached, k, a, &trace, rng);
        }
    }
}

/// Every trace of up to 7 requests for 4 pages, with every k and a up to 4, on a table with a place for each
/// page that is asked for.
fn all_small(reached: &mut Reached) {
    for trace in lists(4, 7) {
        let places = trace.len().min(4);
        for (k, a) in small_sizes() {
            reached.compare(&on_table(k, a, &trace, places));
        }
    }
}

/// As many requests as are taken, and one more.
fn long(reached: &mut Reached, rng: &mut Rng) {
    for kind in KINDS {
        for (k, a) in [(256, 1), (256, 256), (256, 64), (7, 3)] {
            let trace = of_kind(kind, k, a, TRACE_MAX, rng, scattered);
            reached.compare(&on_table(k, a, &trace, TRACE_MAX));
        }
    }
    let trace = vec![4; TRACE_MAX + 1];
    for (k, a) in [(3, 2), (1, 1), (256, 256), (0, 2), (3, 0), (257, 0)] {
        let too_long = on_table(k, a, &trace, 1);
        reached.compare(&too_long);
        for other in LISTS {
            for wrong in [&[1][..], &[0, 0]] {
                let mut call = too_long.clone();
                *other(&mut call) = Lent::new(wrong);
                reached.compare(&call);
            }
        }
        reached.compare(&on_table(k, a, &trace[1..], 1));
        other_tables(reached, k, a, &trace[..20], rng);
    }
}

pub fn all(reached: &mut Reached, rng: &mut Rng) {
    for (k, a) in border_sizes() {
        for trace in [&[][..], &[0, u32::MAX, 0, 5, 6, 7]] {
            other_tables(reached, k, a, trace, rng);
        }
    }
    short(reached, rng);
    all_small(reached);
    long(reached, rng);
}
