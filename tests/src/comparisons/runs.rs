//! Traces with runs of one page: the readers on such files cut at every byte, and the calls that judge a
//! whole trace file and give its pages, around their limits.

use super::due;
use super::files::read_all;
use crate::calls::files::{TraceCount, TraceFill};
use crate::calls::{Lent, Reached};
use crate::damage::{behind_the_limit, damaged};
use crate::judge_cases::{ka, rq, rr};
use crate::model::editions::new_edition;
use crate::model::files::{read_trace, trace_file};
use crate::model::TRACE_MAX;
use crate::rng::Rng;
use crate::states::border_sizes;
use crate::traces::{any_parked, any_sizes, edition, sizes};

/// The readers on traces with runs, cut at every byte.
fn readers(reached: &mut Reached, rng: &mut Rng) {
    for times in [0, 1, 2, 255, 256, 257, 65_535] {
        let file = [ka(2, 1), rr(0x0102_0304, times), rq(7), rr(u32::MAX, times)].concat();
        for cut in 0..=file.len() {
            read_all(reached, &file[..cut], rng);
        }
    }
    let runs_alone = [rr(5, 3), rr(5, 1), rr(5, 0)].concat();
    read_all(reached, &runs_alone, rng);
}

/// Both calls on a whole file with one limit; the refusal, where a case says it.
fn whole(reached: &mut Reached, file: &Lent<u8>, most: usize, refusal: Option<u32>) {
    let count = TraceCount { file: file.clone(), most };
    let fill = TraceFill { file: file.clone(), pages: Lent::marks(most) };
    let (counted, filled) = (reached.compare(&count).1, reached.compare(&fill).1);
    due("trace_count", &count, refusal, counted.refusal);
    due("trace_fill", &fill, refusal, filled.refusal);
}

/// A file under limits around its number of requests and under others, for the count also far larger ones.
fn limits(reached: &mut Reached, bytes: &[u8], rng: &mut Rng) {
    let file = Lent::new(bytes);
    let n = read_trace(bytes, TRACE_MAX).map_or(rng.below(40), |trace| trace.pages.len());
    for most in [0, 1, n.saturating_sub(1), n, n + 1, n + rng.below(20), rng.below(n + 1)] {
        whole(reached, &file, most, None);
    }
    for most in [TRACE_MAX, u32::MAX as usize, usize::MAX] {
        reached.compare(&TraceCount { file: file.clone(), most });
    }
}

/// Both editions of drawn traces, sound, with other sizes, and damaged.
fn drawn(reached: &mut Reached, rng: &mut Rng) {
    for turn in 0..3_000 {
        let (k, a) = sizes(rng);
        let n = if turn % 40 == 0 { rng.between(100, 900) } else { rng.below(24) };
        let pages = any_parked(k, a, n, rng);
        let (k, a) = if rng.once_in(4) { any_sizes(rng) } else { (k, a) };
        for file in [trace_file(k, a, &pages), new_edition(k, a, &pages), edition(k, a, &pages, rng)] {
            let file = damaged(&file, turn % 3, rng);
            limits(reached, &file, rng);
        }
    }
    for (k, a) in border_sizes() {
        for tail in [&[][..], &rr(5, 3), &rr(5, 0), b"R"] {
            limits(reached, &[&ka(k, a)[..], tail].concat(), rng);
        }
    }
}

/// Each cut of a file with runs.
fn every_cut(reached: &mut Reached, rng: &mut Rng) {
    let file = [ka(3, 2), rr(5, 3), rq(6), rr(6, 1), rr(6, 2), rq(5), rr(1, 300)].concat();
    for cut in 0..=file.len() {
        limits(reached, &file[..cut], rng);
    }
}

/// Requests that meet a limit exactly, with each end behind them, and those that pass it with one record,
/// which is 3 whatever follows.
fn met_and_passed(reached: &mut Reached) {
    let most = TRACE_MAX;
    let heads = [
        (0, ka(3, 2)),
        (1, [ka(3, 2), rr(5, 1)].concat()),
        (4, [ka(3, 2), rr(5, 3), rq(6)].concat()),
        (4, [ka(3, 2), rq(6), rr(5, 3)].concat()),
        (65_535, [ka(3, 2), rr(5, 65_535)].concat()),
        (most, [ka(3, 2), rr(5, 65_535), rq(5)].concat()),
        (most, [ka(3, 2), rr(5, 32_768), rr(5, 32_768)].concat()),
        (most, trace_file(3, 2, &vec![7; most])),
        (131_070, [ka(3, 2), rr(5, 65_535), rr(6, 65_535)].concat()),
    ];
    for (requests, head) in heads {
        for (end, refusal) in behind_the_limit() {
            let file = Lent::new(&[&head[..], &end].concat());
            whole(reached, &file, requests, Some(refusal));
            if requests > 0 {
                whole(reached, &file, requests - 1, Some(3));
            }
            let spare = if refusal == 3 { None } else { Some(refusal) };
            whole(reached, &file, requests + 1, spare);
        }
    }
}

pub fn all(reached: &mut Reached, rng: &mut Rng) {
    readers(reached, rng);
    drawn(reached, rng);
    every_cut(reached, rng);
    met_and_passed(reached);
}
