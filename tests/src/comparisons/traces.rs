//! The sizes, and whole traces.

use crate::calls::queue::{Exported, OverTrace};
use crate::calls::{layers, min, Lent, Reached};
use crate::model::fifo::Fifo;
use crate::model::files::schedule_file;
use crate::model::lru::Lru;
use crate::model::{self, TRACE_MAX};
use crate::rng::Rng;
use crate::states::border_sizes;
use crate::traces::{any, any_sizes, of_kind, scattered, sizes, KINDS};
use std::marker::PhantomData;

/// The length of MIN's schedule; of a refused trace that of a KA.
fn schedule_length(k: u32, a: u32, trace: &[u32]) -> usize {
    let bundles = model::min::run(k, a, trace).map_or(Vec::new(), |run| run.bundles);
    schedule_file(k, a, &[]).len() + bundles.iter().map(|(_, pages)| 8 + 4 * pages.len()).sum::<usize>()
}

fn schedule(reached: &mut Reached, k: u32, a: u32, trace: &[u32], room: usize) {
    reached.compare(&min::Schedule { k, a, trace: trace.to_vec(), bytes: Lent::marks(room) });
}

/// The layers over a trace, on a table with a place for each request.
fn on_table(k: u32, a: u32, trace: &[u32]) -> layers::OverTrace {
    let unused = Lent::new(&vec![0; trace.len()]);
    layers::OverTrace { k, a, trace: trace.to_vec(), pages: unused.clone(), numbers: unused }
}

/// Tables with as many places as the layers take at the end, one less, one more and others; with unequal
/// lists; with a place that is used; and with two of these at once.
fn other_tables(reached: &mut Reached, k: u32, a: u32, trace: &[u32], rng: &mut Rng) {
    let full = on_table(k, a, trace);
    let (left, _) = reached.compare(&full);
    let most = left.numbers.list().iter().filter(|&&number| number > 0).count();
    for places in [0, most.saturating_sub(1), most, most + 1, rng.below(trace.len() + 1), trace.len() + 1] {
        let equal = Lent::new(&vec![0; places]);
        let longer = Lent::new(&vec![0; places + 1]);
        let mut used = longer.clone();
        used.list_mut()[rng.below(places + 1)] = 1 + rng.below(3) as u32;
        for (pages, numbers) in [
            (&equal, &equal),
            (&equal, &longer),
            (&longer, &equal),
            (&longer, &used),
            (&used, &longer),
            (&used, &equal),
            (&equal, &used),
        ] {
            let (pages, numbers) = (pages.clone(), numbers.clone());
            reached.compare(&layers::OverTrace { pages, numbers, ..full.clone() });
        }
    }
}

fn through<P: Exported>(reached: &mut Reached, k: u32, a: u32, trace: &[u32]) {
    reached.compare(&OverTrace { policy: PhantomData::<P>, k, a, trace: trace.to_vec() });
}

/// One trace through MIN, LRU and oldest load first, and through the layers on a table with places enough.
fn through_all(reached: &mut Reached, k: u32, a: u32, trace: &[u32]) {
    reached.compare(&min::Count { k, a, trace: trace.to_vec() });
    through::<Lru>(reached, k, a, trace);
    through::<Fifo>(reached, k, a, trace);
    reached.compare(&on_table(k, a, trace));
}

/// Short traces, with every kind of table and with schedule bytes around what is needed.
fn short(reached: &mut Reached, rng: &mut Rng) {
    for turn in 0..4_000 {
        let (k, a) = if rng.once_in(4) { any_sizes(rng) } else { sizes(rng) };
        let n = if rng.once_in(20) { rng.between(100, 2_000) } else { rng.between(0, 60) };
        let trace = any(k.clamp(1, 256), a.clamp(1, 256), n, rng);
        through_all(reached, k, a, &trace);
        let needed = schedule_length(k, a, &trace);
        for room in [needed - 1 - rng.below(6), needed, needed + rng.below(4)] {
            schedule(reached, k, a, &trace, room);
        }
        if turn % 4 == 0 {
            other_tables(reached, k, a, &trace, rng);
        }
    }
}

/// Schedule bytes of every length up to two more than are needed.
fn every_length(reached: &mut Reached, rng: &mut Rng) {
    for _ in 0..30 {
        let k = rng.between(1, 5) as u32;
        let a = rng.between(1, k as usize) as u32;
        let trace = any(k, a, 12, rng);
        for room in 0..=schedule_length(k, a, &trace) + 2 {
            schedule(reached, k, a, &trace, room);
        }
    }
}

/// Schedules of three bundles of every size, in as many bytes as are needed and in one fewer.
fn every_bundle(reached: &mut Reached) {
    for a in 1..=256 {
        for k in [a, a.max(128), 256] {
            let trace: Vec<u32> = (0..k + 3 * a).collect();
            let needed = schedule_length(k, a, &trace);
            schedule(reached, k, a, &trace, needed);
            schedule(reached, k, a, &trace, needed - 1);
        }
    }
}

/// As many requests as are taken, and one more.
fn long(reached: &mut Reached, rng: &mut Rng) {
    for kind in KINDS {
        for (k, a) in [(256, 1), (256, 256), (7, 3)] {
            let trace = of_kind(kind, k, a, TRACE_MAX, rng, scattered);
            through_all(reached, k, a, &trace);
            let needed = schedule_length(k, a, &trace);
            schedule(reached, k, a, &trace, needed);
            schedule(reached, k, a, &trace, needed - 1);
        }
    }
    let trace = vec![4; TRACE_MAX + 1];
    for (k, a) in [(3, 2), (1, 1), (256, 256), (0, 2), (3, 0), (257, 0)] {
        through_all(reached, k, a, &trace);
        other_tables(reached, k, a, &trace, rng);
        schedule(reached, k, a, &trace, 5);
    }
}

pub fn all(reached: &mut Reached, rng: &mut Rng) {
    for (k, a) in border_sizes() {
        reached.compare(&min::Sizes { k, a });
        for trace in [&[][..], &[0, u32::MAX, 0, 5, 6, 7]] {
            through_all(reached, k, a, trace);
            other_tables(reached, k, a, trace, rng);
            schedule(reached, k, a, trace, 6);
            schedule(reached, k, a, trace, 5);
        }
    }
    for k in 0..=258 {
        for a in 0..=258 {
            reached.compare(&min::Sizes { k, a });
        }
    }
    short(reached, rng);
    every_length(reached, rng);
    every_bundle(reached);
    long(reached, rng);
}
