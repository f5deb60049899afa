//! Pairs of files for the judge, each with its answer by hand: document 01's own, the places where one
//! refusal comes before another, corners that are easily got wrong, and Req 03's runs of one page.

use crate::model::files::{put_entry, put_request, put_run, trace_file, Entry};
use crate::model::TRACE_MAX;

pub fn ev(t: u32, pages: &[u32]) -> Vec<u8> {
    let mut out = Vec::new();
    put_entry(&mut out, &Entry::Ev { t, pages: pages.to_vec() });
    out
}

pub fn pf(t: u32, page: u32) -> Vec<u8> {
    let mut out = Vec::new();
    put_entry(&mut out, &Entry::Pf { t, page });
    out
}

pub fn ka(k: u32, a: u32) -> Vec<u8> {
    trace_file(k, a, &[])
}

pub fn rq(page: u32) -> Vec<u8> {
    let mut out = Vec::new();
    put_request(&mut out, page);
    out
}

pub fn rr(page: u32, times: u16) -> Vec<u8> {
    let mut out = Vec::new();
    put_run(&mut out, page, times);
    out
}

/// A schedule case: its name, k and a, the trace, the schedule's parts, the answer by hand.
pub type Case = (&'static str, (u32, u32), &'static [u32], Vec<Vec<u8>>, i64);

/// Legal schedules and document 01's own.
fn accepted() -> Vec<Case> {
    const SHIFT: &[u32] = &[1, 2, 3, 4, 2, 5, 6, 1];
    vec![
        ("MIN's schedule of the shift", (3, 2), SHIFT, vec![ka(3, 2), ev(3, &[3, 1]), ev(6, &[4, 2])], 2),
        ("LRU's", (3, 2), SHIFT, vec![ka(3, 2), ev(3, &[1, 2]), ev(5, &[3, 4]), ev(7, &[2, 5])], 3),
        ("KA alone costs nothing", (3, 2), &[], vec![ka(3, 2)], 0),
        ("KA alone, room for all", (3, 2), &[1, 2, 3, 1], vec![ka(3, 2)], 0),
        ("evicting the requested page", (2, 1), &[1, 1], vec![ka(2, 1), ev(1, &[1])], 1),
        ("EV then PF of one page", (2, 1), &[1, 1], vec![ka(2, 1), ev(1, &[1]), pf(1, 1)], 1),
        ("PF of the requested page", (1, 1), &[1], vec![ka(1, 1), pf(0, 1)], 0),
        ("two EVs at one request", (2, 1), &[1, 2, 3], vec![ka(2, 1), ev(2, &[1]), ev(2, &[2])], 2),
        ("several PFs at one request", (3, 1), &[1, 2, 3], vec![ka(3, 1), pf(0, 3), pf(0, 2)], 0),
        ("pages 0 and 4294967295", (1, 1), &[0, u32::MAX], vec![ka(1, 1), ev(1, &[0])], 1),
        ("a bundle of n = a = k", (2, 2), &[1, 2, 3], vec![ka(2, 2), ev(2, &[2, 1])], 1),
        ("a page never requested", (2, 1), &[1, 2], vec![ka(2, 1), pf(0, 9), ev(1, &[9])], 1),
    ]
}

/// Refusals 6 and 7, and which of two comes first.
fn refused() -> Vec<Case> {
    const THREE: &[u32] = &[1, 2, 3];
    vec![
        ("KA alone", (3, 2), &[1, 2, 3, 4, 2, 5, 6, 1], vec![ka(3, 2)], -7),
        ("no request, an EV", (2, 1), &[], vec![ka(2, 1), ev(0, &[1])], -6),
        ("no request, a PF", (2, 1), &[], vec![ka(2, 1), pf(0, 1)], -6),
        ("another k", (3, 1), THREE, vec![ka(4, 1)], -6),
        ("another a", (3, 1), THREE, vec![ka(3, 2)], -6),
        ("k 0 before KA differs", (3, 1), THREE, vec![ka(0, 1)], -1),
        ("k 257 before KA differs", (3, 1), THREE, vec![ka(257, 1)], -1),
        ("a above k before KA differs", (3, 1), THREE, vec![ka(3, 4)], -2),
        ("a page in two EVs of one t", (2, 1), THREE, vec![ka(2, 1), ev(2, &[1]), ev(2, &[1])], -6),
        ("a page twice in an EV", (2, 2), THREE, vec![ka(2, 2), ev(2, &[1, 1])], -6),
        ("a page not held", (2, 1), THREE, vec![ka(2, 1), ev(2, &[3])], -6),
        ("n 0", (2, 1), THREE, vec![ka(2, 1), ev(2, &[])], -6),
        ("n above a, pages held", (2, 1), THREE, vec![ka(2, 1), ev(2, &[1, 2])], -6),
        ("PF of a held page", (2, 1), THREE, vec![ka(2, 1), pf(1, 1)], -6),
        ("the same PF twice", (3, 1), THREE, vec![ka(3, 1), pf(0, 3), pf(0, 3)], -6),
        ("PF of the page just requested", (2, 1), &[1, 1], vec![ka(2, 1), pf(1, 1)], -6),
        ("EV after PF at one t", (3, 1), THREE, vec![ka(3, 1), pf(1, 3), ev(1, &[1])], -6),
        ("t falls", (3, 1), THREE, vec![ka(3, 1), ev(2, &[1]), ev(1, &[1])], -6),
        ("t is no request", (3, 1), THREE, vec![ka(3, 1), ev(3, &[1])], -6),
        ("t is no request, far", (3, 1), THREE, vec![ka(3, 1), ev(u32::MAX, &[1])], -6),
        ("t is no request closes none", (1, 1), THREE, vec![ka(1, 1), ev(3, &[1])], -6),
        ("t falls closes none", (1, 1), THREE, vec![ka(1, 1), ev(1, &[1]), ev(0, &[1])], -6),
        ("7 before a page not held", (1, 1), THREE, vec![ka(1, 1), ev(2, &[9])], -7),
        ("7 before a held page to fetch", (1, 1), THREE, vec![ka(1, 1), pf(2, 2)], -7),
        ("7 after PFs beyond k", (1, 1), &[1], vec![ka(1, 1), pf(0, 2), pf(0, 3), pf(0, 4)], -7),
        ("6 in a PF beyond k", (1, 1), &[1], vec![ka(1, 1), pf(0, 2), pf(0, 3), pf(0, 2)], -6),
        ("EV after PFs beyond k", (1, 1), &[1], vec![ka(1, 1), pf(0, 2), pf(0, 3), ev(0, &[2])], -6),
        ("7 at the last request", (2, 1), THREE, vec![ka(2, 1), pf(1, 9)], -7),
    ]
}

/// Damaged forms, and their order before and after 6 and 7.
fn damaged() -> Vec<Case> {
    const THREE: &[u32] = &[1, 2, 3];
    let cut = |mut record: Vec<u8>, by: usize| {
        record.truncate(record.len() - by);
        record
    };
    vec![
        ("an empty schedule", (1, 1), THREE, vec![], -5),
        ("one byte", (1, 1), THREE, vec![b"K".to_vec()], -5),
        ("KA cut", (1, 1), THREE, vec![cut(ka(9, 9), 1)], -5),
        ("an EV in place of KA, cut", (1, 1), THREE, vec![b"EV".to_vec()], -4),
        ("a second KA", (1, 1), &[1], vec![ka(1, 1), ka(1, 1)], -4),
        ("a KA out of place, cut", (1, 1), &[1], vec![ka(1, 1), b"KA".to_vec()], -4),
        ("an RQ out of place", (1, 1), &[1], vec![ka(1, 1), rq(1)], -4),
        ("an RR out of place", (1, 1), &[1], vec![ka(1, 1), rr(1, 1)], -4),
        ("an RR out of place, no times", (1, 1), &[1], vec![ka(1, 1), rr(1, 0)], -4),
        ("an RR out of place, cut", (1, 1), &[1], vec![ka(1, 1), cut(rr(1, 1), 1)], -4),
        ("an RR's mark out of place before 7", (1, 1), THREE, vec![ka(1, 1), cut(rr(1, 1), 6)], -4),
        ("an RR in place of KA", (1, 1), &[1], vec![rr(1, 1)], -4),
        ("no mark, two bytes", (1, 1), &[1], vec![ka(1, 1), b"XX".to_vec()], -4),
        ("one byte left over before 7", (1, 1), THREE, vec![ka(1, 1), b"E".to_vec()], -5),
        ("no mark before 7", (1, 1), THREE, vec![ka(1, 1), b"ev".to_vec()], -4),
        ("EV's fields cut before n", (1, 1), THREE, vec![ka(1, 1), cut(ev(2, &[]), 1)], -5),
        ("EV's n 0 before 7", (1, 1), THREE, vec![ka(1, 1), ev(2, &[])], -6),
        ("EV's n above a before its pages", (2, 1), &[1], vec![ka(2, 1), cut(ev(0, &[1, 2]), 8)], -6),
        ("EV's n above a before 7", (1, 1), THREE, vec![ka(1, 1), cut(ev(2, &[1, 2]), 1)], -6),
        ("EV's n 65535", (1, 1), &[1], vec![ka(1, 1), b"EV\0\0\0\0\xff\xff".to_vec()], -6),
        ("EV's pages cut before 7", (1, 1), THREE, vec![ka(1, 1), cut(ev(2, &[1]), 1)], -5),
        ("EV's pages cut before t", (1, 1), &[1], vec![ka(1, 1), cut(ev(7, &[1]), 1)], -5),
        ("PF cut before 7", (1, 1), THREE, vec![ka(1, 1), cut(pf(2, 1), 1)], -5),
        ("PF cut before t", (1, 1), &[1], vec![ka(1, 1), cut(pf(7, 1), 3)], -5),
        ("form after PFs beyond k", (1, 1), &[1], vec![ka(1, 1), pf(0, 2), pf(0, 3), b"E".to_vec()], -5),
        ("an earlier 6 before form", (1, 1), &[1], vec![ka(1, 1), ev(0, &[1]), b"X".to_vec()], -6),
        ("an earlier 7 before form", (1, 1), THREE, vec![ka(1, 1), pf(2, 2), b"X".to_vec()], -7),
    ]
}

/// Two whole files: name, trace, schedule, answer by hand.
pub type Pair = (&'static str, Vec<u8>, Vec<u8>, i64);

/// The trace is judged whole before the schedule's first byte.
pub fn trace_first() -> Vec<Pair> {
    let sound = trace_file(2, 1, &[1, 2, 3]);
    let bad = b"XX".to_vec();
    let behind = |head: &[u8], tail: &[u8]| [head, tail].concat();
    vec![
        ("an empty trace file", vec![], vec![], -5),
        ("an empty trace file, bad schedule", vec![], bad.clone(), -5),
        ("a trace cut", sound[..sound.len() - 1].to_vec(), bad.clone(), -5),
        ("a trace's last mark", behind(&sound, b"EV"), vec![], -4),
        ("a trace of k 0", trace_file(0, 0, &[]), bad.clone(), -1),
        ("a trace of a 0", trace_file(1, 0, &[]), bad.clone(), -2),
        ("k before a cut request", behind(&ka(257, 1), b"R"), bad.clone(), -1),
        ("a sound trace", sound, bad, -4),
        ("a schedule as a trace", behind(&ka(2, 1), &ev(0, &[1])), ka(2, 1), -4),
    ]
}

/// Records at requests inside runs. The trace asks five times for 1, then three times for 2.
pub fn inside_runs() -> Vec<Pair> {
    let case = |name, k: u32, parts: &[Vec<u8>], answer| {
        let trace = [ka(k, 1), rr(1, 5), rr(2, 2), rq(2)].concat();
        (name, trace, [ka(k, 1), parts.concat()].concat(), answer)
    };
    vec![
        ("a run of 256", [ka(1, 1), rr(1, 256)].concat(), [ka(1, 1), ev(255, &[1])].concat(), 1),
        ("a run of 256, behind it", [ka(1, 1), rr(1, 256)].concat(), [ka(1, 1), ev(256, &[1])].concat(), -6),
        case("runs, room for all", 2, &[], 0),
        case("runs, no room", 1, &[], -7),
        case("EV between runs", 1, &[ev(5, &[1])], 1),
        case("EV at a run's first request", 1, &[ev(0, &[1])], -6),
        case("EV inside a run", 2, &[ev(2, &[1])], 1),
        case("two EVs inside a run", 2, &[ev(2, &[1]), ev(3, &[1])], 2),
        case("EV at a run's last request, then no room", 1, &[ev(4, &[1])], -7),
        case("EV inside the next run, too late", 1, &[ev(6, &[1])], -7),
        case("EV at the last request", 2, &[ev(7, &[2])], 1),
        case("EV behind the last request", 2, &[ev(8, &[2])], -6),
        case("t falls inside a run", 2, &[ev(3, &[1]), ev(2, &[1])], -6),
        case("EV then PF inside a run", 2, &[ev(2, &[1]), pf(2, 1)], 1),
        case("PF of the page of its run", 2, &[pf(2, 1)], -6),
        case("PF then EV at one t inside a run", 2, &[pf(2, 9), ev(2, &[1])], -6),
        case("PF then EV at the next t inside a run", 2, &[pf(2, 9), ev(3, &[9])], 1),
        case("PF inside a run, then no room", 2, &[pf(2, 9)], -7),
        case("PFs inside a run beyond k", 2, &[pf(2, 8), pf(2, 9), ev(3, &[8])], -7),
        case("PF of the next run's page", 2, &[pf(3, 2)], 0),
    ]
}

/// What behind a sound trace is refused, and with which answer. An RR is cut after each of its bytes.
fn wrong_tails() -> Vec<(&'static str, Vec<u8>, i64)> {
    let mut out = vec![
        ("an RR of no times", rr(1, 0), -13),
        ("an RR of no times, then no mark", [rr(1, 0), b"XX".to_vec()].concat(), -13),
        ("an RR of no times behind a run", [rr(1, 9), rr(1, 0)].concat(), -13),
        ("an RR of no times, then passing the limit", [rr(1, 0), rr(1, 65_535), rr(1, 9)].concat(), -13),
        ("an RR, then no mark", [rr(1, 2), b"XX".to_vec()].concat(), -4),
    ];
    for cut in 1..8 {
        out.extend([1, 0].map(|times| ("an RR cut", rr(1, times)[..cut].to_vec(), -5)));
    }
    out
}

/// Traces with runs that are refused, before any look at the schedule.
pub fn wrong_runs() -> Vec<Pair> {
    let mut out = Vec::new();
    for (name, tail, answer) in wrong_tails() {
        for head in [ka(2, 1), [ka(2, 1), rq(1)].concat(), [ka(2, 1), rr(1, 3), rq(1)].concat()] {
            out.extend(
                [ka(2, 1), b"XX".to_vec()].map(|end| (name, [&head[..], &tail].concat(), end, answer)),
            );
        }
    }
    for whole in [rr(1, 1), rr(1, 0)] {
        for length in 2..=8 {
            out.push(("an RR first in the trace", whole[..length].to_vec(), vec![], -4));
        }
    }
    out.push(("a byte of an RR first in the trace", b"R".to_vec(), vec![], -5));
    out
}

/// Behind exactly 65,536 requests: each end with its answer.
fn ends_at_the_limit() -> Vec<(Vec<u8>, i64)> {
    vec![
        (rq(0), -3),
        ([rq(0), b"X".to_vec()].concat(), -3),
        (rq(0)[..5].to_vec(), -5),
        (rr(0, 1), -3),
        (rr(0, 65_535), -3),
        ([rr(0, 2), b"XX".to_vec()].concat(), -3),
        ([rr(0, 2), rr(0, 0)].concat(), -3),
        (rr(0, 0), -13),
        ([rr(0, 0), b"X".to_vec()].concat(), -13),
        (rr(0, 0)[..7].to_vec(), -5),
        (b"RR\0".to_vec(), -5),
        (b"RR".to_vec(), -5),
        (b"RS\0".to_vec(), -4),
    ]
}

/// Traces of 65,536 requests and of more, in single records and in runs.
pub fn at_the_limit() -> Vec<Pair> {
    let single = trace_file(2, 1, &vec![7; TRACE_MAX]);
    let last = TRACE_MAX as u32;
    let mut out = Vec::new();
    for full in [
        single,
        [ka(2, 1), rr(7, 65_535), rq(7)].concat(),
        [ka(2, 1), rr(7, 65_535), rr(7, 1)].concat(),
        [ka(2, 1), rq(7), rr(7, 65_535)].concat(),
        [ka(2, 1), rr(7, 32_768), rr(7, 32_768)].concat(),
    ] {
        out.extend([
            ("65536 requests", full.clone(), ka(2, 1), 0),
            ("the last request", full.clone(), [ka(2, 1), ev(last - 1, &[7])].concat(), 1),
            ("behind the last", full.clone(), [ka(2, 1), ev(last, &[7])].concat(), -6),
        ]);
        for (end, answer) in ends_at_the_limit() {
            out.push(("65536 requests and an end", [&full[..], &end].concat(), vec![], answer));
        }
    }
    for passing in [rr(7, 2), rr(8, 65_535)] {
        for tail in [vec![], b"X".to_vec(), b"XX".to_vec(), rr(7, 0), rr(7, 1)] {
            let trace = [ka(2, 1), rr(7, 65_535), passing.clone(), tail].concat();
            out.push(("a run that passes the limit", trace, ka(2, 1), -3));
        }
    }
    out
}

/// All schedule cases.
pub fn cases() -> Vec<Case> {
    [accepted(), refused(), damaged()].concat()
}
