//! The calls that turn a trace file into an edition: files in every mix of records, sound and damaged, into
//! lent bytes around the lengths of both editions, the limits of requests, runs around 65,535, and there and
//! back.

use super::due;
use crate::calls::editions::{Conversion, Convert, ProgramToNew, ProgramToOld, ToNew, ToOld};
use crate::calls::{Lent, Reached};
use crate::damage::{behind_the_limit, damaged};
use crate::judge_cases::{ka, rq, rr};
use crate::model::editions::{new_edition, old_edition};
use crate::model::files::{read_trace, trace_file, trace_of, Trace};
use crate::model::{BENCH_MAX, TRACE_MAX};
use crate::report::{differs, hex};
use crate::rng::Rng;
use crate::states::{all_lists, border_sizes, end_page};
use crate::traces::{any_parked, any_sizes, edition, every_edition, exactly, sizes};

/// The lengths of lent bytes for a file: none, around that of a KA, the file's own, around those of its two
/// editions, and plenty.
fn rooms(file: &[u8]) -> Vec<usize> {
    let lengths = read_trace(file, TRACE_MAX).map_or([6; 2], |Trace { k, a, pages }| {
        [old_edition(k, a, &pages).len(), new_edition(k, a, &pages).len()]
    });
    let mut out = vec![0, 5, 6, file.len(), file.len().max(lengths[0]) + 40];
    out.extend(lengths.iter().flat_map(|length| length - 1..=length + 1));
    out.sort_unstable();
    out.dedup();
    out
}

fn through<C: Conversion>(reached: &mut Reached, file: &Lent<u8>, rooms: &[usize]) {
    for &room in rooms {
        reached.compare(&Convert::<C>::new(file, room));
    }
}

/// A file through the four conversions, into lent bytes of these lengths.
fn through_rooms(reached: &mut Reached, bytes: &[u8], rooms: &[usize]) {
    let file = Lent::new(bytes);
    through::<ToOld>(reached, &file, rooms);
    through::<ToNew>(reached, &file, rooms);
    through::<ProgramToOld>(reached, &file, rooms);
    through::<ProgramToNew>(reached, &file, rooms);
}

fn through_all(reached: &mut Reached, bytes: &[u8]) {
    through_rooms(reached, bytes, &rooms(bytes));
}

/// Every edition of every trace of up to 6 requests for two pages.
fn all_small(reached: &mut Reached) {
    for names in (0..=6).flat_map(|length| all_lists(2, length)) {
        let pages: Vec<u32> = names.into_iter().map(|name| end_page(name as usize)).collect();
        for records in every_edition(&pages) {
            through_all(reached, &trace_of(3, 2, &records));
        }
    }
}

/// Pages that differ in one bit only, some of them with the bytes of marks.
fn near_pages(reached: &mut Reached) {
    for page in [0, 0x0102_0304, u32::from_le_bytes(*b"RRRQ"), u32::MAX] {
        for other in (0..32).map(|bit| page ^ 1 << bit) {
            through_all(reached, &[ka(3, 2), rq(page), rq(other)].concat());
            through_all(reached, &[ka(3, 2), rr(page, 2), rr(other, 3), rq(other), rq(page)].concat());
        }
    }
}

/// RRs of many times, also those with the bytes of marks, alone, beside requests for their page and between
/// those for another.
fn every_times(reached: &mut Reached) {
    let [single, run] = [*b"RQ", *b"RR"].map(u16::from_le_bytes);
    for times in [0, 1, 2, 3, 255, 256, 257, single, run, 65_533, 65_534, 65_535] {
        let run = rr(0x0102_0304, times);
        for (before, behind) in [
            (vec![], vec![]),
            (rq(0x0102_0304), vec![]),
            (vec![], rq(0x0102_0304)),
            (rr(0x0102_0304, 1), rr(0x0102_0304, 2)),
            (rq(7), rr(7, 2)),
        ] {
            through_all(reached, &[ka(2, 1), before, run.clone(), behind].concat());
        }
    }
}

/// Each cut of a file with runs: no byte, a KA alone, and ends inside and between records.
fn every_cut(reached: &mut Reached) {
    let file = [ka(3, 2), rr(5, 3), rq(6), rr(6, 1), rr(6, 2), rq(5), rr(1, 300)].concat();
    for cut in 0..=file.len() {
        through_all(reached, &file[..cut]);
    }
}

/// Lent bytes of every length up to two more than either edition needs.
fn every_length(reached: &mut Reached, rng: &mut Rng) {
    for _ in 0..30 {
        let (k, a) = sizes(rng);
        let pages = any_parked(k, a, 12, rng);
        let rooms: Vec<usize> = (0..=old_edition(k, a, &pages).len() + 2).collect();
        through_rooms(reached, &edition(k, a, &pages, rng), &rooms);
    }
}

fn borders(reached: &mut Reached) {
    for (k, a) in border_sizes() {
        for tail in [&[][..], &rr(5, 3), &rr(5, 0), b"R"] {
            through_all(reached, &[&ka(k, a)[..], tail].concat());
        }
    }
}

/// What a conversion writes for a file, with so many lent bytes.
fn output<C: Conversion>(reached: &mut Reached, file: &[u8], room: usize) -> Vec<u8> {
    let (left, answer) = reached.compare(&Convert::<C>::new(&Lent::new(file), room));
    left.bytes.list()[..answer.fields[1] as usize].to_vec()
}

/// An old file to the new edition and back; what both editions of another file of the trace stand for; and
/// that the new one is no longer than this file.
fn there_and_back<O: Conversion, N: Conversion>(reached: &mut Reached, trace: &Trace, file: &[u8]) {
    let input = [("trace", format!("{:?}", trace)), ("file", hex(file))];
    let single = trace_file(trace.k, trace.a, &trace.pages);
    let room = single.len();
    let there = output::<N>(reached, &single, room);
    let back = output::<O>(reached, &there, room);
    if back != single {
        differs("old, new, old", &input, &hex(&single), &hex(&back));
    }
    let (old, new) = (output::<O>(reached, file, room), output::<N>(reached, file, room));
    for bytes in [&old, &new] {
        let read = read_trace(bytes, O::MOST);
        if read.as_ref() != Ok(trace) {
            differs("an edition, read", &input, &trace, &read);
        }
    }
    if new.len() > file.len() {
        differs("the new edition's length", &input, &file.len(), &new.len());
    }
}

/// Traces in drawn editions: sound ones also there and back, then with other sizes and damaged.
fn drawn(reached: &mut Reached, rng: &mut Rng) {
    for turn in 0..2_000 {
        let (k, a) = sizes(rng);
        let n = if turn % 40 == 0 { rng.between(100, 900) } else { rng.below(24) };
        let trace = Trace { k, a, pages: any_parked(k, a, n, rng) };
        let file = edition(k, a, &trace.pages, rng);
        through_all(reached, &file);
        there_and_back::<ToOld, ToNew>(reached, &trace, &file);
        there_and_back::<ProgramToOld, ProgramToNew>(reached, &trace, &file);
        let (k, a) = any_sizes(rng);
        let other = edition(k, a, &trace.pages, rng);
        through_all(reached, &damaged(&other, turn % 3, rng));
    }
    for n in [BENCH_MAX - 1, BENCH_MAX, BENCH_MAX + 1, TRACE_MAX - 1, TRACE_MAX, TRACE_MAX + 1] {
        let pages = any_parked(256, 17, n, rng);
        through_all(reached, &edition(256, 17, &pages, rng));
        if n <= TRACE_MAX {
            let file = edition(256, 17, &pages, rng);
            there_and_back::<ToOld, ToNew>(reached, &Trace { k: 256, a: 17, pages }, &file);
        }
    }
}

/// A file with its refusal by hand, 0 for none: with bytes enough, and with none at all, where a file that is
/// not refused is 8.
fn refused<C: Conversion>(reached: &mut Reached, parts: &[&[u8]], refusal: u32) {
    let file = Lent::new(&parts.concat());
    let without = if refusal == 0 { 8 } else { refusal };
    for (room, expected) in [(6 + 6 * C::MOST, refusal), (0, without)] {
        let call = Convert::<C>::new(&file, room);
        let (_, answer) = reached.compare(&call);
        due(C::CALL.0, &call, Some(expected), answer.refusal);
    }
}

/// The limit of requests met, with each end behind it; passed, whatever follows; and damage that stands
/// before the record which passes it.
fn limits<C: Conversion>(reached: &mut Reached, rng: &mut Rng) {
    for full in exactly(C::MOST, rng) {
        for (end, refusal) in behind_the_limit() {
            refused::<C>(reached, &[&full, &end], refusal);
        }
        for passing in [rq(5), rr(5, 1), rr(9, 2), rr(5, 65_535)] {
            for tail in [&[][..], b"X", b"XX", &rr(5, 0)] {
                refused::<C>(reached, &[&full, &passing, tail], 3);
            }
        }
        for (damage, refusal) in [(b"XX".to_vec(), 4), (ka(3, 2), 4), (rr(5, 0), 13)] {
            refused::<C>(reached, &[&full[..6], &damage, &full[6..], &rq(5)], refusal);
        }
    }
    let almost = (C::MOST - 1) as u16;
    for tail in [&[][..], b"X", b"XX", &rr(5, 0)] {
        refused::<C>(reached, &[&ka(3, 2), &rr(5, almost), &rr(5, 2), tail], 3);
        refused::<C>(reached, &[&ka(3, 2), &rr(5, almost), &rr(6, 65_535), tail], 3);
    }
}

/// n requests for page 5 in records of 1 to `most` requests.
fn in_parts(n: usize, most: usize, rng: &mut Rng) -> Vec<u8> {
    let mut out = Vec::new();
    let mut left = n;
    while left > 0 {
        let part = rng.between(1, most.min(left));
        out.extend(if part == 1 { rq(5) } else { rr(5, part as u16) });
        left -= part;
    }
    out
}

/// n requests for page 5, somewhat more or fewer than 65,535, cut into records in many ways.
fn cuts(n: usize, rng: &mut Rng) -> Vec<Vec<u8>> {
    let run = |times: usize| rr(5, times as u16);
    let mut out = vec![
        rq(5).repeat(n),
        run(1).repeat(n),
        [rq(5), run(n - 1)].concat(),
        [run(n - 1), rq(5)].concat(),
        [rq(5), run(n - 2), rq(5)].concat(),
        [run(n - 2), rq(5), rq(5)].concat(),
        [run(n - 3), rq(5), run(2)].concat(),
    ];
    for first in [1, 2, 256, n / 2, n - 256, n - 2, n - 1] {
        out.push([run(first), run(n - first)].concat());
    }
    out.extend([3, 100, 5_000, 40_000].map(|most| in_parts(n, most, rng)));
    out
}

/// Runs around the most that an RR can say, alone and beside a request for another page.
fn long_runs(reached: &mut Reached, rng: &mut Rng) {
    for n in [65_534, 65_535, 65_536] {
        for cut in cuts(n, rng) {
            through_all(reached, &[ka(3, 2), cut.clone()].concat());
            if n < TRACE_MAX {
                let beside = if rng.once_in(2) { [rq(6), cut] } else { [cut, rq(6)] };
                through_all(reached, &[ka(3, 2), beside.concat()].concat());
            }
        }
    }
    through_all(reached, &[ka(3, 2), rr(5, 65_535)].concat());
    through_all(reached, &[ka(3, 2), rr(5, 32_768), rq(6), rr(5, 32_767)].concat());
}

pub fn all(reached: &mut Reached, rng: &mut Rng) {
    all_small(reached);
    near_pages(reached);
    every_times(reached);
    every_cut(reached);
    every_length(reached, rng);
    borders(reached);
    drawn(reached, rng);
    limits::<ToOld>(reached, rng);
    limits::<ToNew>(reached, rng);
    limits::<ProgramToOld>(reached, rng);
    limits::<ProgramToNew>(reached, rng);
    long_runs(reached, rng);
}
