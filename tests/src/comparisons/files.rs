//! The readers at every offset of files, and the writers around the end of their bytes.

use crate::calls::files::*;
use crate::calls::{Lent, Reached};
use crate::damage::damaged;
use crate::model::files::{schedule_file, trace_file, Entry};
use crate::rng::Rng;
use crate::schedules::legal;
use crate::states::{border_sizes, end_page};
use crate::traces::{any, any_parked, any_sizes, edition, sizes};

/// The length of the KA that a file starts with.
const KA: usize = 6;

/// Every reader at an offset.
fn read_at(reached: &mut Reached, file: &Lent<u8>, at: usize, bound: u32) {
    reached.compare(&ReadTrace { file: file.clone(), at });
    reached.compare(&TraceReader { file: file.clone(), at });
    reached.compare(&ReadSchedule { file: file.clone(), at });
    reached.compare(&ScheduleReader { file: file.clone(), at });
    reached.compare(&ReadScheduleWithin { file: file.clone(), at, bound });
}

/// Every reader at every offset of a file, and past its end.
pub fn read_all(reached: &mut Reached, bytes: &[u8], rng: &mut Rng) {
    let file = Lent::new(bytes);
    reached.compare(&ReadKa { file: file.clone() });
    let past = [bytes.len() + 1, bytes.len() + 2, usize::MAX - 7, usize::MAX];
    for at in (0..=bytes.len()).chain(past) {
        let bound = rng.pick(&[0, 1, 2, 3, 256, 257, u32::MAX]);
        read_at(reached, &file, at, bound);
    }
    for _ in 0..6 {
        let from = rng.pick(&[0, 6, 14, bytes.len() / 2, bytes.len(), bytes.len() + 1, usize::MAX]);
        let n = rng.pick(&[0, 1, 2, 3, bytes.len() / 4, bytes.len(), 1 << 62, usize::MAX]);
        let room = rng.pick(&[0, 4, 7, bytes.len()]);
        reached.compare(&ReadPages { file: file.clone(), from, n, bytes: Lent::marks(room) });
    }
}

/// A file of either kind, a trace with or without runs, at times with refused sizes, at times with entries
/// that no buffer allows.
fn drawn_file(rng: &mut Rng) -> Vec<u8> {
    let (k, a) = sizes(rng);
    let trace = any(k, a, rng.below(8), rng);
    let (told_k, told_a) = if rng.once_in(3) { any_sizes(rng) } else { (k, a) };
    match rng.below(3) {
        0 => return trace_file(told_k, told_a, &trace),
        1 => return edition(told_k, told_a, &any_parked(k, a, 16, rng), rng),
        _ => {}
    }
    let mut entries = legal(k, a, &trace, rng);
    entries.truncate(8);
    if rng.once_in(3) {
        let pages = (0..rng.below(5)).map(end_page).collect();
        entries.push(Entry::Ev { t: rng.word(), pages });
    }
    schedule_file(told_k, told_a, &entries)
}

fn readers(reached: &mut Reached, rng: &mut Rng) {
    for turn in 0..1_350 {
        let mut file = damaged(&drawn_file(rng), turn % 3, rng);
        file.truncate(180);
        read_all(reached, &file, rng);
    }
    for (k, a) in border_sizes() {
        read_all(reached, &schedule_file(k, a, &[]), rng);
    }
    for _ in 0..200 {
        let noise: Vec<u8> =
            (0..rng.below(9)).map(|_| rng.pick(&[b'K', b'A', b'R', b'Q', b'E', b'V', 0])).collect();
        read_all(reached, &noise, rng);
    }
}

/// EVs with few, 255, 256 and 257 pages, whole and cut by a byte, under every bound around n.
fn long_bundles(reached: &mut Reached) {
    for n in [0, 1, 2, 255, 256, 257, 300] {
        let pages = (0..n as usize).map(end_page).collect();
        let whole = schedule_file(256, 256, &[Entry::Ev { t: u32::MAX, pages }, Entry::Pf { t: 0, page: 9 }]);
        for cut in [0, 1, 10, 11, 12, whole.len() - 13, whole.len() - 14] {
            let file = Lent::new(&whole[..whole.len() - cut]);
            for bound in [0, 1, n - u32::from(n > 0), n, n + 1, 255, 256, 257, u32::MAX] {
                for at in [6, 7, 14, 14 + 4 * n as usize] {
                    read_at(reached, &file, at, bound);
                }
            }
            let bytes = Lent::marks(4 * n as usize + 1);
            reached.compare(&ReadPages { file, from: 14, n: n as usize, bytes });
        }
    }
}

/// The offsets that a record of some length is written to, in lent bytes of some length.
fn offsets(length: usize, record: usize) -> Vec<usize> {
    let around = length.saturating_sub(record + 3)..=length + 3;
    around.chain([0, 1, usize::MAX - 3, usize::MAX]).collect()
}

/// Every writer with right sizes, around the end of lent bytes of many lengths.
fn writers(reached: &mut Reached, rng: &mut Rng) {
    for length in 0..40 {
        let bytes: Vec<u8> = (0..length).map(|_| rng.byte()).collect();
        let bytes = Lent::new(&bytes);
        for at in offsets(length, 12) {
            let (t, page) = (rng.word(), rng.pick(&[0, 1, u32::MAX, 0x0102_0304]));
            reached.compare(&WriteRq { bytes: bytes.clone(), at, page });
            for times in [0, 1, 2, 255, 256, 65_535] {
                reached.compare(&WriteRr { bytes: bytes.clone(), at, page, times });
            }
            reached.compare(&WritePf { bytes: bytes.clone(), at, t, page });
            for (k, a) in [(1, 1), (256, 1), (256, 256), (0, 1), (257, 1), (3, 0), (3, 4), (65_536 + 3, 2)] {
                reached.compare(&WriteKa { bytes: bytes.clone(), at, k, a });
            }
            for n in 0..5 {
                reached.compare(&WriteEv { bytes: bytes.clone(), at, t, pages: vec![page; n] });
            }
        }
    }
    for (k, a) in border_sizes() {
        for at in 0..=8 {
            reached.compare(&WriteKa { bytes: Lent::marks(7), at, k, a });
        }
    }
}

/// EVs of every number of pages that there is, and of 257: written into as many bytes as the model's record has,
/// one fewer and one more, and read whole and cut by a byte.
fn every_bundle(reached: &mut Reached, rng: &mut Rng) {
    for n in 0..=257 {
        let (t, pages) = (rng.word(), (0..n).map(|_| rng.word()).collect::<Vec<_>>());
        let file = schedule_file(256, 256, &[Entry::Ev { t, pages: pages.clone() }]);
        let record = file.len() - KA;
        for length in [record - 1, record, record + 1] {
            for at in [0, 3] {
                reached.compare(&WriteEv { bytes: Lent::marks(at + length), at, t, pages: pages.clone() });
            }
        }
        for cut in [0, 1] {
            read_at(reached, &Lent::new(&file[..file.len() - cut]), KA, n);
        }
    }
}

/// The EV writer with the longest page lists and with too long ones.
fn long_writers(reached: &mut Reached, rng: &mut Rng) {
    for n in [0, 1, 255, 256, 257, 300, 65_536] {
        let record = 8 + 4 * n;
        let pages: Vec<u32> = (0..n).map(|_| rng.word()).collect();
        for length in [0, record - 1, record, record + 1, record + 9] {
            for at in [0, 1, 2, 9, 10, length, length + 1, usize::MAX] {
                reached.compare(&WriteEv {
                    bytes: Lent::marks(length),
                    at,
                    t: rng.word(),
                    pages: pages.clone(),
                });
            }
        }
    }
}

pub fn all(reached: &mut Reached, rng: &mut Rng) {
    readers(reached, rng);
    long_bundles(reached);
    writers(reached, rng);
    every_bundle(reached, rng);
    long_writers(reached, rng);
}
