//! Runs the programs `to_old` and `to_new` on thousands of traces, sound and damaged, and compares every byte
//! that they print with the second implementation's. Usage: against_programs TO_OLD TO_NEW

use bench_tests::damage::{behind_the_limit, damage, damaged};
use bench_tests::judge_cases::{ev, ka, rq, rr};
use bench_tests::model::editions::{new_edition, old_edition, printed, Edition};
use bench_tests::model::files::{read_trace, trace_file};
use bench_tests::model::BENCH_MAX;
use bench_tests::programs::output;
use bench_tests::report::{all_reached, differs, hex, tally_text};
use bench_tests::rng::Rng;
use bench_tests::traces::{any, any_parked, any_sizes, edition, exactly, sizes};

/// Ends the program over a difference. What is printed may be a file or a line, and is shown so that either can
/// be read.
fn differ(test: &str, what: &str, input: &[u8], expected: &[u8], got: &[u8]) -> ! {
    let input = [("kind", what.to_string()), ("input", hex(input))];
    let (expected, got) = (expected.escape_ascii(), got.escape_ascii());
    differs(test, &input, &format_args!("{}", expected), &format_args!("{}", got));
}

struct Program {
    name: &'static str,
    path: String,
    edition: Edition,
    runs: usize,
    /// How often each refusal was given; place 0 counts those without one.
    tally: [usize; 21],
}

impl Program {
    fn new(name: &'static str, path: &str, edition: Edition) -> Self {
        Program { name, path: path.to_string(), edition, runs: 0, tally: [0; 21] }
    }

    /// Compares on one input with the second implementation and gives what was printed.
    fn check(&mut self, what: &str, input: &[u8]) -> Vec<u8> {
        let expected = printed(self.edition, input);
        let got = output(&self.path, input).unwrap_or_else(|error| error.to_string().into_bytes());
        if got != expected {
            differ(self.name, what, input, &expected, &got);
        }
        self.runs += 1;
        self.tally[read_trace(input, BENCH_MAX).err().unwrap_or(0) as usize] += 1;
        got
    }

    /// Compares on one input for which the output is given by hand.
    fn prints(&mut self, what: &str, input: &[u8], expected: &[u8]) {
        let got = self.check(what, input);
        if got != expected {
            differ("the model of a program", what, input, expected, &got);
        }
    }

    fn close(&self) {
        all_reached(self.name, &[0, 1, 2, 3, 4, 5, 13], &self.tally);
        println!("{}: {} traces agree ({})", self.name, self.runs, tally_text(&"refusals", &self.tally[..]));
    }
}

struct Programs {
    to_old: Program,
    to_new: Program,
}

impl Programs {
    fn check(&mut self, what: &str, input: &[u8]) {
        self.to_old.check(what, input);
        self.to_new.check(what, input);
    }

    /// Compares on one input with both outputs by hand.
    fn print(&mut self, what: &str, input: &[u8], old: &[u8], new: &[u8]) {
        self.to_old.prints(what, input, old);
        self.to_new.prints(what, input, new);
    }

    /// Compares on one input with its refusal by hand; none for 0.
    fn refuse(&mut self, what: &str, parts: &[&[u8]], refusal: u32) {
        let input = parts.concat();
        if refusal == 0 {
            return self.check(what, &input);
        }
        let line = format!("refused {}\n", refusal).into_bytes();
        self.print(what, &input, &line, &line);
    }

    /// An old file to the new edition and back: its own bytes.
    fn there_and_back(&mut self, what: &str, old: &[u8]) {
        let new = self.to_new.check(what, old);
        self.to_old.prints(what, &new, old);
    }
}

/// The inputs that Req 08 and its corners name.
fn named(programs: &mut Programs) {
    let empty = ka(3, 2);
    programs.print("no request", &empty, &empty, &empty);
    let shift = trace_file(3, 2, &[1, 2, 3, 4, 2, 5, 6, 1]);
    programs.print("the shift", &shift, &shift, &shift);
    let fives = [trace_file(3, 2, &[5; 5]), [ka(3, 2), rr(5, 5)].concat()];
    for records in [[rq(5), rr(5, 3), rq(5)], [rr(5, 2), rr(5, 1), rr(5, 2)], [rr(5, 1), rq(5), rr(5, 3)]] {
        let input = [ka(3, 2), records.concat()].concat();
        programs.print("5 5 5 5 5", &input, &fives[0], &fives[1]);
    }
    for page in [0, 7, 0x0102_0304, u32::MAX] {
        let one = [ka(256, 256), rq(page)].concat();
        programs.print("a run of one", &[ka(256, 256), rr(page, 1)].concat(), &one, &one);
        let (two, run) = (trace_file(1, 1, &[page; 2]), [ka(1, 1), rr(page, 2)].concat());
        programs.print("a page twice", &two, &two, &run);
    }
    for (k, a) in
        [(0, 0), (0, 1), (1, 0), (1, 1), (256, 256), (256, 257), (257, 1), (257, 0), (65_535, 65_535)]
    {
        programs.check("k and a at the ends", &[ka(k, a), rq(7), rr(7, 1), rr(9, 3)].concat());
        programs.check("k and a at the ends, no request", &ka(k, a));
    }
    programs.refuse("a schedule", &[&ka(3, 2), &ev(0, &[1])], 4);
}

/// Each cut of a file, and wrong heads and tails.
fn wrong(programs: &mut Programs) {
    let file = [ka(3, 2), rr(5, 3), rq(6), rr(6, 1), rq(5), rr(1, 300)].concat();
    for cut in 0..=file.len() {
        programs.check("a cut", &file[..cut]);
    }
    for head in [&b"KB"[..], b"RQ", &rr(5, 0), b"\0\0\0", b"refused 5\n"] {
        programs.refuse("a wrong head", &[head], 4);
        programs.refuse("a wrong head before a file", &[head, &file], 4);
    }
    programs.refuse("a byte before a file", &[b"R", &file], 4);
    for (tail, refusal) in [(rr(1, 0), 13), (ka(3, 2), 4), (b"RS".to_vec(), 4), (b"R".to_vec(), 5)] {
        programs.refuse("a wrong tail", &[&file, &tail], refusal);
    }
    programs.refuse("a line feed behind a file", &[&file, b"\n"], 5);
}

/// The limit of requests met exactly, with each end behind it, and passed, whatever follows.
fn at_the_limit(programs: &mut Programs, rng: &mut Rng) {
    for full in exactly(BENCH_MAX, rng) {
        for (end, refusal) in behind_the_limit() {
            programs.refuse("the limit, and an end", &[&full, &end], refusal);
        }
        for tail in [&b"X"[..], &rr(5, 0), &full] {
            programs.refuse("past the limit", &[&full, &rq(5), tail], 3);
        }
        programs.refuse("before the limit", &[&full[..6], &rr(5, 0), &full[6..], &rq(5)], 13);
        for _ in 0..10 {
            programs.check("at the limit, damaged", &damage(&full, rng));
        }
    }
    for passing in [rr(7, 4_097), [rr(7, 4_095), rr(7, 2)].concat(), rr(7, 2_049).repeat(2), rr(7, 65_535)] {
        programs.refuse("a run past the limit", &[&ka(3, 2), &passing], 3);
        programs.refuse("a run past the limit, and more", &[&ka(3, 2), &passing, &rr(7, 0)], 3);
    }
    for n in [BENCH_MAX - 1, BENCH_MAX] {
        for _ in 0..5 {
            let pages = any_parked(256, 17, n, rng);
            programs.check("near the limit", &edition(256, 17, &pages, rng));
            programs.there_and_back("near the limit", &trace_file(256, 17, &pages));
        }
    }
}

/// More bytes than the longest trace has: nothing behind the record that is refused is looked at.
fn long_inputs(programs: &mut Programs, rng: &mut Rng) {
    let ones = [ka(3, 2), rr(7, 1).repeat(BENCH_MAX)].concat();
    for (end, refusal) in [(rq(5), 3), (rr(5, 1), 3), (rr(5, 0), 13), (b"XX".to_vec(), 4)] {
        for length in [1, 2, 6, 7, 8, 9, 50_000, 300_000] {
            let noise: Vec<u8> = (0..length).map(|_| rng.byte()).collect();
            programs.refuse("a full trace, an end and more", &[&ones, &end, &noise], refusal);
            programs.refuse("a full trace, an end and zeros", &[&ones, &end, &vec![0; length]], refusal);
        }
    }
    for count in [BENCH_MAX + 1, BENCH_MAX + 2, 5_462, 5_463, 20_000] {
        for long in [rr(7, 1).repeat(count), rq(7).repeat(count)] {
            programs.refuse("far too many records", &[&ka(3, 2), &long], 3);
            programs.check("far too many records, damaged", &damage(&[ka(3, 2), long].concat(), rng));
        }
    }
    programs.refuse("very many zeros", &[&[0; 200_000]], 4);
    programs.refuse("a sound head and very many zeros", &[&ka(3, 2), &rq(5), &[0; 200_000]], 4);
}

fn drawn(programs: &mut Programs, rng: &mut Rng) {
    for round in 0..250 {
        let (k, a) = sizes(rng);
        let n = if round % 10 == 0 { rng.between(200, BENCH_MAX) } else { rng.between(0, 60) };
        let pages = if rng.once_in(3) { any(k, a, n, rng) } else { any_parked(k, a, n, rng) };
        let file = edition(k, a, &pages, rng);
        programs.check("drawn", &file);
        programs.there_and_back("there and back", &trace_file(k, a, &pages));
        programs.check("damaged", &damage(&file, rng));
        let (k, a) = any_sizes(rng);
        let other = edition(k, a, &pages, rng);
        programs.check("other sizes, damaged", &damaged(&other, round % 3, rng));
    }
    for _ in 0..100 {
        let input: Vec<u8> = (0..rng.between(0, 20)).map(|_| rng.byte()).collect();
        programs.check("noise", &input);
    }
}

fn main() {
    let words: Vec<String> = std::env::args().skip(1).collect();
    let (old, new) = match &words[..] {
        [old, new] => (old, new),
        _ => panic!("usage: against_programs TO_OLD TO_NEW"),
    };
    let to_old = Program::new("to_old", old, old_edition);
    let to_new = Program::new("to_new", new, new_edition);
    let mut programs = Programs { to_old, to_new };
    let mut rng = Rng::new(2);
    named(&mut programs);
    wrong(&mut programs);
    at_the_limit(&mut programs, &mut rng);
    long_inputs(&mut programs, &mut rng);
    drawn(&mut programs, &mut rng);
    programs.to_old.close();
    programs.to_new.close();
}
