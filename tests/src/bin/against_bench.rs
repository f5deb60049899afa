//! Runs the program `bench` on thousands of traces, sound and damaged, and compares each output
//! with the second implementation's lines. Usage: against_bench PROGRAM

use bench_tests::damage::{damage, damaged};
use bench_tests::judge_cases::{ev, ka, rq, rr};
use bench_tests::model::editions::new_edition;
use bench_tests::model::files::{trace_file, trace_of, Asked};
use bench_tests::model::lines::lines;
use bench_tests::model::BENCH_MAX;
use bench_tests::programs::output;
use bench_tests::report::{all_reached, differs, hex, tally_text};
use bench_tests::rng::Rng;
use bench_tests::traces::{any, any_parked, any_sizes, edition, of_kind, parked, sizes, KINDS};

struct Bench {
    program: String,
    runs: usize,
    /// How often each refusal was given; place 0 counts those without one.
    tally: [usize; 21],
}

impl Bench {
    /// What the program prints for an input, as text.
    fn text(&self, input: &[u8]) -> String {
        match output(&self.program, input) {
            Ok(printed) => String::from_utf8_lossy(&printed).into_owned(),
            Err(error) => error.to_string(),
        }
    }

    /// Compares on one input with the second implementation.
    fn check(&mut self, what: &str, input: &[u8]) {
        self.expect(what, input, &lines(input));
    }

    /// Compares on several editions of one trace, for which the same is printed.
    fn same(&mut self, what: &str, editions: &[Vec<u8>]) {
        let expected = lines(&editions[0]);
        for input in editions {
            self.agree(what, input, &expected, &lines(input));
            self.expect(what, input, &expected);
        }
    }

    /// Compares on one input whose first line is given by hand.
    fn begins(&mut self, what: &str, input: &[u8], first: &str) {
        let expected = lines(input);
        self.agree(what, input, first, expected.lines().next().unwrap_or(""));
        self.expect(what, input, &expected);
    }

    /// Ends the program if the second implementation gives something else than what is due.
    fn agree(&self, what: &str, input: &[u8], due: &str, modelled: &str) {
        if modelled != due {
            let input = [("kind", what.to_string()), ("input", hex(input))];
            differs("the model of bench", &input, &due, &modelled);
        }
    }

    /// Compares with given lines.
    fn expect(&mut self, what: &str, input: &[u8], expected: &str) {
        let got = self.text(input);
        if got != expected {
            differs("bench", &[("kind", what.to_string()), ("input", hex(input))], &expected, &got);
        }
        self.runs += 1;
        let refusal = expected.strip_prefix("refused ").map_or(0, |n| n.trim().parse().unwrap_or(0));
        self.tally[refusal] += 1;
    }
}

/// The inputs that document 01 and its corners name.
fn named(bench: &mut Bench) {
    bench.check("the shift", &trace_file(3, 2, &[1, 2, 3, 4, 2, 5, 6, 1]));
    bench.check("no byte", &[]);
    for head in [&b"K"[..], b"R", b"KB", b"RQ", b"RQ\0\0\0\0", b"KA", b"KA\x01", b"KA\x01\0\x01", b"\0\0\0"] {
        bench.check("a cut or wrong head", head);
    }
    for (k, a) in [(0, 0), (0, 1), (1, 0), (256, 256), (256, 257), (257, 1), (257, 0), (65_535, 65_535)] {
        bench.check("k and a at the ends", &trace_file(k, a, &[7, 7, 9]));
        bench.check("k and a at the ends, no request", &trace_file(k, a, &[]));
    }
    bench.check("5 5 5", &trace_file(3, 2, &[5, 5, 5]));
    bench.check("LRU makes fewer bundles than oldest load", &trace_file(3, 1, &[1, 2, 3, 1, 4, 1]));
    bench.check("oldest load makes fewer bundles than LRU", &trace_file(3, 1, &[1, 2, 3, 1, 4, 2]));
    bench.check("marking makes fewer bundles than both", &trace_file(2, 1, &[1, 2, 1, 2, 3, 1]));
    bench.check("marking makes more bundles than both", &trace_file(2, 1, &[1, 2, 1, 2, 3, 2]));
    bench.check("pages at the ends", &trace_file(2, 1, &[0, u32::MAX, 1, 0, u32::MAX, 0]));
    for tail in [&b"R"[..], b"RQ", b"RQ\x01\0\0", b"KA\x01\0\x01\0", b"X", b"XX", b"PF\0"] {
        let input = [&trace_file(3, 2, &[1, 2, 3, 4])[..], tail].concat();
        bench.check("a wrong tail", &input);
    }
    bench.check("a schedule", &[ka(3, 2), ev(0, &[1])].concat());
}

/// Runs that Req 03 and its corners name, with the first line by hand.
fn named_runs(bench: &mut Bench) {
    let trace = trace_file(3, 2, &[1, 2, 3, 4]);
    for cut in 2..8 {
        for times in [1, 0] {
            bench.begins("an RR cut", &[&trace[..], &rr(1, times)[..cut]].concat(), "refused 5");
        }
    }
    for (tail, first) in [
        (rr(1, 1), "trace 3 2 5"),
        (rr(1, 256), "trace 3 2 260"),
        (rr(1, 0), "refused 13"),
        ([rr(1, 0), b"XX".to_vec()].concat(), "refused 13"),
        ([rr(1, 2), rr(1, 0)].concat(), "refused 13"),
        ([rr(1, 0), rr(1, 65_535)].concat(), "refused 13"),
        ([rr(1, 2), b"R".to_vec()].concat(), "refused 5"),
        ([rr(1, 2), b"RS".to_vec()].concat(), "refused 4"),
        ([rr(1, 65_535), rr(1, 0)].concat(), "refused 3"),
    ] {
        bench.begins("a tail with an RR", &[&trace[..], &tail].concat(), first);
    }
    for length in 2..=8 {
        bench.begins("an RR first", &rr(1, 0)[..length], "refused 4");
    }
    bench.begins("k before a run", &[ka(0, 1), rr(1, 0)].concat(), "refused 1");
    bench.begins("a before a run", &[ka(1, 2), rr(1, 0)].concat(), "refused 2");
    let tug = [trace_file(3, 2, &[5, 5, 5]), [ka(3, 2), rr(5, 3)].concat()];
    bench.same("5 5 5 as a run", &tug);
    bench.same("5 5 5 as two records", &[&tug[..], &[[ka(3, 2), rr(5, 2), rq(5)].concat()]].concat());
    let shift = [1, 2, 3, 4, 2, 5, 6, 1];
    let ones = shift.map(|page| Asked::Rr { page, times: 1 });
    bench.same("the shift in runs of one", &[trace_file(3, 2, &shift), trace_of(3, 2, &ones)]);
}

/// What may stand behind exactly as many requests as are taken, with the refusal by hand.
fn ends_at_the_limit() -> Vec<(Vec<u8>, &'static str)> {
    let mut out = vec![
        (rq(5), "refused 3"),
        (rr(5, 1), "refused 3"),
        (rr(5, 65_535), "refused 3"),
        ([rr(5, 1), b"XX".to_vec()].concat(), "refused 3"),
        ([rq(5), rr(5, 0)].concat(), "refused 3"),
        (rr(5, 0), "refused 13"),
        ([rr(5, 0), b"X".to_vec()].concat(), "refused 13"),
        (b"XX".to_vec(), "refused 4"),
        (b"KA".to_vec(), "refused 4"),
        (b"R".to_vec(), "refused 5"),
    ];
    out.extend((2..8).map(|cut| (rr(5, 1)[..cut].to_vec(), "refused 5")));
    out
}

/// Runs that meet the limit of requests exactly, each with every end behind it, and runs that pass it.
fn runs_at_the_limit(bench: &mut Bench, rng: &mut Rng) {
    let ones = |count: usize| [ka(3, 2), rr(7, 1).repeat(count)].concat();
    for full in [
        [ka(3, 2), rr(7, 4_096)].concat(),
        [ka(3, 2), rr(7, 4_095), rq(7)].concat(),
        [ka(3, 2), rq(7), rr(8, 4_095)].concat(),
        [ka(3, 2), rr(7, 2_048).repeat(2)].concat(),
        trace_file(3, 2, &[7; BENCH_MAX]),
        ones(BENCH_MAX),
    ] {
        bench.begins("runs at the limit", &full, "trace 3 2 4096");
        for (end, first) in ends_at_the_limit() {
            bench.begins("runs at the limit, and an end", &[&full[..], &end].concat(), first);
        }
    }
    for passing in [rr(7, 4_097), [rr(7, 4_095), rr(7, 2)].concat(), rr(7, 2_049).repeat(2), rr(7, 65_535)] {
        for tail in [vec![], b"X".to_vec(), b"XX".to_vec(), rr(7, 0), rr(7, 0).repeat(5_000)] {
            bench.begins("runs past the limit", &[ka(3, 2), passing.clone(), tail].concat(), "refused 3");
        }
    }
    for count in [BENCH_MAX + 1, BENCH_MAX + 2, 5_000, 20_000] {
        let long = ones(count);
        bench.begins("very many runs of one", &long, "refused 3");
        for _ in 0..20 {
            bench.check("very many runs of one, damaged", &damage(&long, rng));
        }
    }
    for n in [BENCH_MAX - 1, BENCH_MAX, BENCH_MAX + 1, BENCH_MAX + 2] {
        for kind in KINDS {
            let ordinary = of_kind(kind, 256, 17, n, rng, |name| name as u32);
            editions(bench, "long runs near the limit", 256, 17, &parked(&ordinary, 16, 200, rng), rng);
        }
    }
}

/// One trace in single records, in the longest runs and in drawn ones; and the last damaged.
fn editions(bench: &mut Bench, what: &str, k: u32, a: u32, pages: &[u32], rng: &mut Rng) {
    let drawn = edition(k, a, pages, rng);
    bench.same(what, &[trace_file(k, a, pages), new_edition(k, a, pages), drawn.clone()]);
    for pieces in 1..=2 {
        bench.check("runs, damaged", &damaged(&drawn, pieces, rng));
    }
}

/// Around the limit of requests, with and without damage behind.
fn at_the_limit(bench: &mut Bench, rng: &mut Rng) {
    for n in [BENCH_MAX - 1, BENCH_MAX, BENCH_MAX + 1, BENCH_MAX + 2] {
        for kind in KINDS {
            for (k, a) in [(256, 1), (256, 17), (256, 256), (3, 2), (1, 1)] {
                let pages = of_kind(kind, k, a, n, rng, |name| name as u32);
                bench.check("near the limit", &trace_file(k, a, &pages));
            }
        }
        let sound = trace_file(8, 3, &any(8, 3, n, rng));
        for tail in [&b"R"[..], b"RQ", b"RQ\x01\0\0", b"XY", b"KA", b"RQ\0\0\0\0", b"RQ\0\0\0\0Z", b"EV"] {
            bench.check("near the limit, with a tail", &[&sound[..], tail].concat());
        }
        for cut in 1..=7 {
            bench.check("near the limit, cut", &sound[..sound.len() - cut]);
        }
        for _ in 0..20 {
            bench.check("near the limit, damaged", &damage(&sound, rng));
        }
    }
    let long = trace_file(4, 2, &any(4, 2, 50_000, rng));
    bench.check("far above the limit", &long);
}

fn drawn(bench: &mut Bench, rng: &mut Rng) {
    for _ in 0..1_500 {
        let (k, a) = sizes(rng);
        let n = rng.between(0, 60);
        bench.check("sound, short", &trace_file(k, a, &any(k, a, n, rng)));
    }
    for _ in 0..200 {
        let (k, a) = sizes(rng);
        let n = rng.between(200, BENCH_MAX);
        bench.check("sound, long", &trace_file(k, a, &any(k, a, n, rng)));
    }
    for _ in 0..2_500 {
        let (k, a) = any_sizes(rng);
        let n = rng.between(0, 30);
        let input = trace_file(k, a, &any(k.clamp(1, 256), a.clamp(1, 256), n, rng));
        let pieces = rng.between(0, 2);
        bench.check("damaged", &damaged(&input, pieces, rng));
    }
    for round in 0..600 {
        let (k, a) = sizes(rng);
        let n = if round % 20 == 0 { rng.between(200, BENCH_MAX) } else { rng.between(0, 60) };
        editions(bench, "runs", k, a, &any_parked(k, a, n, rng), rng);
    }
    for _ in 0..200 {
        let input: Vec<u8> = (0..rng.between(0, 20)).map(|_| rng.byte()).collect();
        bench.check("noise", &input);
    }
}

fn main() {
    let program = std::env::args().nth(1).expect("usage: against_bench PROGRAM");
    let mut bench = Bench { program, runs: 0, tally: [0; 21] };
    let mut rng = Rng::new(1);
    named(&mut bench);
    named_runs(&mut bench);
    at_the_limit(&mut bench, &mut rng);
    runs_at_the_limit(&mut bench, &mut rng);
    drawn(&mut bench, &mut rng);
    all_reached("bench", &[0, 1, 2, 3, 4, 5, 13], &bench.tally);
    println!("bench: {} traces agree ({})", bench.runs, tally_text(&"refusals", &bench.tally[..]));
}
