//! Calls the judge of the static library on named pairs of files with answers by hand, on every small
//! pair, on tens of thousands of drawn and damaged pairs and on full-size ones, and compares each
//! answer with the second implementation's.

use bench_tests::damage::damage;
use bench_tests::exported::judge::judge;
use bench_tests::judge_cases::{
    at_the_limit, cases, ev, inside_runs, ka, pf, rq, rr, trace_first, wrong_runs,
};
use bench_tests::model::editions::new_edition;
use bench_tests::model::files::{schedule_file, trace_file};
use bench_tests::model::{self, min, signed, TRACE_MAX};
use bench_tests::report::{all_reached, differs, hex, tally_text};
use bench_tests::rng::Rng;
use bench_tests::schedules::{disturb, legal};
use bench_tests::traces::{any, any_parked, any_sizes, edition, of_kind, parked, scattered, sizes, KINDS};

#[derive(Default)]
struct Judge {
    pairs: usize,
    /// How often each refusal was given; place 0 counts the costs.
    tally: [usize; 21],
}

/// A pair of files, as a difference shows it.
fn show(what: &str, trace: &[u8], schedule: &[u8]) -> [(&'static str, String); 3] {
    [("kind", what.to_string()), ("trace", hex(trace)), ("schedule", hex(schedule))]
}

impl Judge {
    fn check(&mut self, what: &str, trace: &[u8], schedule: &[u8]) {
        let expected = signed(model::judge::judge(trace, schedule));
        self.expect(what, trace, schedule, expected);
    }

    /// Compares on several editions of one trace, which have one answer.
    fn same(&mut self, what: &str, editions: &[Vec<u8>], schedule: &[u8]) {
        let expected = signed(model::judge::judge(&editions[0], schedule));
        for trace in editions {
            let modelled = signed(model::judge::judge(trace, schedule));
            if modelled != expected {
                differs("two editions, the model", &show(what, trace, schedule), &expected, &modelled);
            }
            self.expect(what, trace, schedule, expected);
        }
    }

    /// Compares with a given answer.
    fn expect(&mut self, what: &str, trace: &[u8], schedule: &[u8], expected: i64) {
        let got = judge(trace, schedule);
        if got != expected {
            differs("judge", &show(what, trace, schedule), &expected, &got);
        }
        self.pairs += 1;
        self.tally[usize::try_from(-expected).unwrap_or(0)] += 1;
    }
}

fn named(judge: &mut Judge) {
    for (name, (k, a), pages, parts, answer) in cases() {
        let (trace, schedule) = (trace_file(k, a, pages), parts.concat());
        judge.expect(name, &trace, &schedule, answer);
        judge.check(name, &trace, &schedule);
    }
    for (name, trace, schedule, answer) in
        [trace_first(), inside_runs(), wrong_runs(), at_the_limit()].concat()
    {
        judge.expect(name, &trace, &schedule, answer);
        judge.check(name, &trace, &schedule);
    }
}

/// Every EV and PF for up to two requests and pages 1 to 3.
fn small_entries() -> Vec<Vec<u8>> {
    let mut out = Vec::new();
    for t in 0..=2 {
        for x in 1..=3 {
            out.extend([pf(t, x), ev(t, &[x])]);
            out.extend((1..=3).map(|y| ev(t, &[x, y])));
        }
    }
    out
}

/// Every schedule of up to three small entries, for a few traces.
fn every_small_pair(judge: &mut Judge) {
    let entries = small_entries();
    let traces = [
        vec![],
        rq(1),
        [rq(1), rq(2)].concat(),
        [rq(1), rq(2), rq(1)].concat(),
        [rr(1, 2), rq(2)].concat(),
        [rq(1), rr(2, 2)].concat(),
    ];
    for (k, a) in [(1, 1), (2, 1), (2, 2), (3, 2)] {
        for records in &traces {
            let trace = [&ka(k, a)[..], records].concat();
            for first in &entries {
                for second in &entries {
                    let two = [ka(k, a), first.clone(), second.clone()].concat();
                    judge.check("small", &trace, &two);
                    for third in &entries {
                        judge.check("small", &trace, &[&two[..], third].concat());
                    }
                }
            }
        }
    }
}

fn drawn(judge: &mut Judge, rng: &mut Rng) {
    for round in 0..40_000 {
        let (k, a) = sizes(rng);
        let n = if round % 50 == 0 { rng.between(50, 1_000) } else { rng.between(0, 24) };
        let pages = if round % 2 == 0 { any(k, a, n, rng) } else { any_parked(k, a, n, rng) };
        let mut entries = legal(k, a, &pages, rng);
        let editions = [trace_file(k, a, &pages), edition(k, a, &pages, rng)];
        judge.same("legal", &editions, &schedule_file(k, a, &entries));
        for _ in 0..rng.between(1, 3) {
            disturb(&mut entries, &pages, rng);
            judge.same("disturbed", &editions, &schedule_file(k, a, &entries));
        }
        let schedule = schedule_file(k, a, &entries);
        judge.same("damaged schedule", &editions, &damage(&schedule, rng));
        for trace in &editions {
            judge.check("damaged trace", &damage(trace, rng), &schedule);
        }
    }
    for _ in 0..20_000 {
        let ((k, a), (other_k, other_a)) = (any_sizes(rng), any_sizes(rng));
        let (trace, schedule) = (trace_file(k, a, &[1, 2, 3]), schedule_file(other_k, other_a, &[]));
        judge.check("any sizes", &trace, &schedule);
    }
}

/// Each cut of one pair, the trace in two editions.
fn every_cut(judge: &mut Judge, rng: &mut Rng) {
    let pages = any_parked(3, 2, 30, rng);
    let editions = [trace_file(3, 2, &pages), edition(3, 2, &pages, rng)];
    let schedule = schedule_file(3, 2, &legal(3, 2, &pages, rng));
    for trace in &editions {
        for cut in 0..trace.len() {
            judge.check("trace cut", &trace[..cut], &schedule);
        }
    }
    for cut in 0..schedule.len() {
        judge.same("schedule cut", &editions, &schedule[..cut]);
    }
}

fn full_size(judge: &mut Judge, rng: &mut Rng) {
    for kind in KINDS {
        for (k, a) in [(256, 1), (256, 100), (256, 256)] {
            let pages = of_kind(kind, k, a, TRACE_MAX, rng, scattered);
            let trace = trace_file(k, a, &pages);
            let best = min::run(k, a, &pages).expect("k and a are sound").bundles;
            judge.expect("full size", &trace, &min::schedule(k, a, &best), best.len() as i64);
            let mut entries = legal(k, a, &pages, rng);
            judge.check("full size, legal", &trace, &schedule_file(k, a, &entries));
            disturb(&mut entries, &pages, rng);
            judge.check("full size, disturbed", &trace, &schedule_file(k, a, &entries));
        }
    }
}

/// Schedules of three bundles of every size, whole and cut by a byte.
fn every_bundle(judge: &mut Judge) {
    for a in 1..=256 {
        for k in [a, 256] {
            let pages: Vec<u32> = (0..k + 3 * a).collect();
            let trace = trace_file(k, a, &pages);
            let best = min::run(k, a, &pages).expect("k and a are sound").bundles;
            let schedule = min::schedule(k, a, &best);
            judge.expect("a bundle size", &trace, &schedule, 3);
            judge.expect("a bundle size, cut", &trace, &schedule[..schedule.len() - 1], -5);
        }
    }
}

/// As many requests as are taken, with long runs, in three editions.
fn full_size_runs(judge: &mut Judge, rng: &mut Rng) {
    for (kind, (k, a)) in KINDS.into_iter().zip([(256, 1), (256, 100), (3, 2), (40, 40)]) {
        let ordinary = of_kind(kind, k, a, TRACE_MAX, rng, scattered);
        let pages = parked(&ordinary, 16, 1_000, rng);
        let editions = [trace_file(k, a, &pages), new_edition(k, a, &pages), edition(k, a, &pages, rng)];
        let best = min::run(k, a, &pages).expect("k and a are sound").bundles;
        for trace in &editions {
            judge.expect("long runs", trace, &min::schedule(k, a, &best), best.len() as i64);
        }
        let mut entries = legal(k, a, &pages, rng);
        judge.same("long runs, legal", &editions, &schedule_file(k, a, &entries));
        disturb(&mut entries, &pages, rng);
        judge.same("long runs, disturbed", &editions, &schedule_file(k, a, &entries));
    }
}

/// Far more PFs at one request than there are places.
fn many_fetches(judge: &mut Judge) {
    let trace = trace_file(256, 1, &[1, 2]);
    let many: Vec<u8> = (0..5_000).flat_map(|page| pf(0, 10 + page)).collect();
    let schedule = [ka(256, 1), many].concat();
    let ends = [(pf(0, 5_009), -6), (pf(0, 10), -6), (pf(0, 5_010), -7), (pf(1, 10), -7)];
    judge.expect("many PFs", &trace, &schedule, -7);
    for (end, answer) in
        ends.into_iter().chain([(ev(0, &[10]), -6), (b"P".to_vec(), -5), (b"QQ".to_vec(), -4)])
    {
        judge.expect("many PFs and an end", &trace, &[&schedule[..], &end].concat(), answer);
    }
}

/// What can follow the PFs of request 2: nothing, a PF of it or of a later one, an EV of it or of a later
/// one, a t that falls or is no request, and damage.
fn ends_of_fetches() -> Vec<Vec<u8>> {
    let last = pf(2, 90_000);
    let entries = [pf(3, 5), pf(3, 90_000), ev(2, &[1]), ev(3, &[1]), pf(1, 90_000), ev(1, &[1]), pf(9, 5)];
    let damage = [&b"P"[..], b"QQ", b"KA\0\x01\x01\0", b"EV\x02\0\0\0\0\0", &last[..9]].map(<[u8]>::to_vec);
    [Vec::new(), last].into_iter().chain(entries).chain(damage).collect()
}

/// Pages for PFs: one behind the other, in high bits only, anywhere.
fn fetched_pages(kind: usize, count: usize, rng: &mut Rng) -> Vec<u32> {
    let page = |i: usize, any: u32| [10 + i as u32, (10 + i as u32) << 16 | 7, any][kind];
    (0..count).map(|i| page(i, rng.word())).collect()
}

/// A schedule with these PFs at request 2, and this end.
fn fetches(pages: &[u32], end: &[u8]) -> Vec<u8> {
    let records = pages.iter().flat_map(|page| pf(2, *page));
    ka(256, 1).into_iter().chain(records).chain(end.iter().copied()).collect()
}

/// Numbers of PFs at one request up to 256, the most pages of a buffer, and beyond: all pages apart with
/// each kind of end, and one page that stands there before or is held.
fn fetches_beyond_the_buffer(judge: &mut Judge, rng: &mut Rng) {
    let trace = trace_file(256, 1, &[1, 2, 3, 4]);
    for count in [60, 64, 70, 200, 253, 254, 255, 256, 257, 258, 300, 3_000] {
        for kind in 0..3 {
            let pages = fetched_pages(kind, count, rng);
            for end in ends_of_fetches() {
                judge.check("PFs beyond the buffer", &trace, &fetches(&pages, &end));
            }
            for from in [0, 1, 63, 255, 256] {
                for to in [1, 64, 255, 256, 257, count - 1] {
                    if from < to && to < count {
                        let mut twice = pages.clone();
                        twice[to] = pages[from];
                        judge.check("a PF twice", &trace, &fetches(&twice, b"P"));
                        twice[to] = 2;
                        judge.check("a held page among PFs", &trace, &fetches(&twice, b"P"));
                    }
                }
            }
        }
    }
}

fn main() {
    let mut judge = Judge::default();
    let mut rng = Rng::new(2);
    named(&mut judge);
    every_small_pair(&mut judge);
    every_cut(&mut judge, &mut rng);
    drawn(&mut judge, &mut rng);
    full_size(&mut judge, &mut rng);
    every_bundle(&mut judge);
    full_size_runs(&mut judge, &mut rng);
    many_fetches(&mut judge);
    fetches_beyond_the_buffer(&mut judge, &mut rng);
    all_reached("judge", &[0, 1, 2, 3, 4, 5, 6, 7, 13], &judge.tally);
    println!("judge: {} pairs of files agree ({})", judge.pairs, tally_text(&"refusals", &judge.tally[..]));
}
