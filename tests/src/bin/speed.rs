//! Times the proved code beside plain versions on the same input, in one run, and prints a table.
//! Run it by tests/speed. Usage: speed PROGRAM PLAIN_PROGRAM [PART ..]
//!
//! PROGRAM is `bench`, PLAIN_PROGRAM plain_bench; a PART is one of bench, next, min, lru, fifo, preview, layers,
//! judge, editions, mark, and without any all are timed. Each time is the least of several repeats.

#[path = "speed/mark.rs"]
mod mark;

use bench_tests::calls::queue::Exported;
use bench_tests::exported::exports;
use bench_tests::exported::judge::judge;
use bench_tests::model::editions::new_edition;
use bench_tests::model::fifo::Fifo;
use bench_tests::model::files::{read_trace, schedule_file, trace_file, trace_of, Asked, Entry};
use bench_tests::model::lru::Lru;
use bench_tests::model::queue::Record;
use bench_tests::model::{layers, BENCH_MAX, TRACE_MAX};
use bench_tests::plain;
use bench_tests::report::{differs, hex};
use bench_tests::rng::Rng;
use bench_tests::schedules::legal;
use bench_tests::timing::{opaque, Table, REPEATS};
use bench_tests::traces::{edition, of_kind, parked, scattered, Kind, KINDS};
use std::collections::HashSet;
use std::io::Write;
use std::process::{Command, Stdio};

const K: u32 = 256;

/// A name for pages that all have the same low half.
fn low_half_zero(name: usize) -> u32 {
    (name as u32) << 16
}

/// One field of what a call stores.
fn field(place: usize, call: impl FnOnce(&mut [u64])) -> u64 {
    let mut out = [0; 10];
    call(&mut out);
    out[place]
}

/// The timed traces with their names: four kinds with scattered pages, and for a 1 one with equal low
/// halves.
fn traces(a: u32, n: usize) -> Vec<(String, Vec<u32>)> {
    let mut rng = Rng::new(4);
    let mut out: Vec<(String, Vec<u32>)> = KINDS
        .iter()
        .map(|&kind| (format!("a {}, {}", a, kind.name()), of_kind(kind, K, a, n, &mut rng, scattered)))
        .collect();
    if a == 1 {
        let equal = of_kind(Kind::Many, K, a, n, &mut rng, low_half_zero);
        out.push(("a 1, many pages, equal low halves".to_string(), equal));
    }
    out
}

/// A trace of a parked tug: between ordinary requests of few pages, one page many times in a row.
fn tug(a: u32, n: usize) -> Vec<u32> {
    let mut rng = Rng::new(6);
    let ordinary = of_kind(Kind::Few, K, a, n, &mut rng, scattered);
    parked(&ordinary, 16, n / 64, &mut rng)
}

/// A trace in single records and in runs, with the names of the rows that time both.
fn two_editions(a: u32, pages: &[u32]) -> [(String, Vec<u8>); 2] {
    [
        (format!("a {}, as single records", a), trace_file(K, a, pages)),
        (format!("a {}, as runs", a), new_edition(K, a, pages)),
    ]
}

/// Runs a program on an input and gives its output.
fn output(program: &str, input: &[u8]) -> String {
    let mut child = Command::new(program)
        .stdin(Stdio::piped())
        .stdout(Stdio::piped())
        .spawn()
        .expect("the program is there");
    let mut stdin = child.stdin.take().expect("standard input is a pipe");
    stdin.write_all(input).expect("the program reads its whole input");
    drop(stdin);
    let output = child.wait_with_output().expect("the program ends");
    String::from_utf8_lossy(&output.stdout).into_owned()
}

fn time_bench(table: &mut Table, program: &str, plain_program: &str) {
    let mut inputs = vec![("no request".to_string(), trace_file(K, 1, &[]))];
    let mut tugs = Vec::new();
    for a in [1, 64] {
        let named = traces(a, BENCH_MAX).into_iter();
        inputs.extend(named.map(|(name, pages)| (name, trace_file(K, a, &pages))));
        tugs.extend(two_editions(a, &tug(a, BENCH_MAX)));
    }
    for (job, inputs) in [("bench on 4,096 requests", inputs), ("bench, parked tug", tugs)] {
        for (name, input) in inputs {
            let (ours, plain) = (&mut || output(program, &input), &mut || output(plain_program, &input));
            table.row(job, name, 1, ours, plain);
        }
    }
}

/// With k 1 MIN does little but find next requests.
fn time_next(table: &mut Table) {
    for (name, pages) in traces(1, TRACE_MAX) {
        table.row(
            "next requests (MIN, k 1)",
            name,
            1,
            &mut || field(2, |out| exports::min_count(1, 1, opaque(&pages), out)) > 0,
            &mut || plain::min::lefts(opaque(&pages)).len() == TRACE_MAX,
        );
    }
}

fn time_min(table: &mut Table) {
    for a in [1, 64] {
        for (name, pages) in traces(a, TRACE_MAX) {
            let ours = || field(1, |out| exports::min_count(K, a, opaque(&pages), out));
            let plain = || u64::from(plain::min::run(K, a, opaque(&pages), |_, _| {}).0);
            table.row("MIN", name, 1, &mut { ours }, &mut { plain });
        }
    }
}

fn time_min_schedule(table: &mut Table) {
    let mut bytes = vec![0; 6 + TRACE_MAX * 12];
    for a in [1, 64] {
        for (name, pages) in traces(a, TRACE_MAX) {
            table.row(
                "MIN and its schedule",
                name,
                1,
                &mut || field(3, |out| exports::min_schedule(K, a, opaque(&pages), &mut bytes, out)),
                &mut || plain::min::schedule(K, a, opaque(&pages)).len() as u64,
            );
        }
    }
}

/// k, a, the count, the cache list, the evicted list, the page.
type PlainRequest = fn(usize, usize, &mut usize, &mut [u32], &mut [u32], u32) -> u32;

/// k, a, the trace; gives bundles and loads.
type PlainRun = fn(u32, u32, &[u32]) -> (u32, u32);

/// A policy with its plain version.
trait Timed: Exported {
    const JOB: &'static str;
    const REQUEST_JOB: &'static str;
    const PREVIEW_JOB: &'static str;
    const BESIDE_JOB: &'static str;
    const PLAIN_REQUEST: PlainRequest;
    const PLAIN_RUN: PlainRun;
    /// Which of the pages 0 to 255, loaded in this order, a call asks for to hit the list's first one each time.
    const FIRST: fn(usize) -> usize;
}

impl Timed for Lru {
    const JOB: &'static str = "LRU";
    const REQUEST_JOB: &'static str = "one LRU request";
    const PREVIEW_JOB: &'static str = "one LRU preview";
    const BESIDE_JOB: &'static str = "one LRU preview beside the request";
    const PLAIN_REQUEST: PlainRequest = plain::lru::request;
    const PLAIN_RUN: PlainRun = plain::lru::run;
    const FIRST: fn(usize) -> usize = |call| call % 256;
}

impl Timed for Fifo {
    const JOB: &'static str = "fifo";
    const REQUEST_JOB: &'static str = "one fifo request";
    const PREVIEW_JOB: &'static str = "one fifo preview";
    const BESIDE_JOB: &'static str = "one fifo preview beside the request";
    const PLAIN_REQUEST: PlainRequest = plain::fifo::request;
    const PLAIN_RUN: PlainRun = plain::fifo::run;
    const FIRST: fn(usize) -> usize = |_| 0;
}

fn time_over_traces<P: Timed>(table: &mut Table) {
    for a in [1, 64] {
        for (name, pages) in traces(a, TRACE_MAX) {
            let ours = || field(1, |out| P::OVER_TRACE.1(K, a, opaque(&pages), out));
            let plain = || u64::from(P::PLAIN_RUN(K, a, opaque(&pages)).0);
            table.row(P::JOB, name, 1, &mut { ours }, &mut { plain });
        }
    }
}

/// Single calls on a full buffer.
const CALLS: usize = 20_000;

fn full_record(a: u32) -> Record {
    Record { k: K, a, requests: 1_000, loads: 500, evictions: 200 }
}

/// The answers to requests for some pages, from a full buffer on, added up.
fn serve_all<P: Timed>(start: &[u32], pages: &[u32]) -> u64 {
    let record = full_record(1);
    let (mut cache, mut evicted) = (start.to_vec(), [0; 1]);
    let mut serve = |page| field(7, |out| P::REQUEST.1(&record, K, &mut cache, &mut evicted, page, out));
    pages.iter().map(|&page| serve(page)).sum()
}

/// Single requests that leave a full buffer full: `page` says which page each call asks for.
fn time_requests<P: Timed>(table: &mut Table, what: &str, page: fn(usize) -> usize, name: fn(usize) -> u32) {
    let start: Vec<u32> = (0..K as usize).map(name).collect();
    let pages: Vec<u32> = (0..CALLS).map(|call| name(page(call))).collect();
    let ours = || serve_all::<P>(&start, &pages);
    let plain = || {
        let (mut cache, mut evicted, mut count) = (start.clone(), [0; 1], K as usize);
        let mut serve = |page| P::PLAIN_REQUEST(K as usize, 1, &mut count, &mut cache, &mut evicted, page);
        pages.iter().map(|&page| u64::from(serve(page))).sum::<u64>()
    };
    table.row(P::REQUEST_JOB, what.to_string(), CALLS, &mut { ours }, &mut { plain });
}

/// Which of the pages 0 to 256 a call asks for to find it absent each time, with a 1.
const NEW: fn(usize) -> usize = |call| (call + 256) % 257;

fn time_policy<P: Timed>(table: &mut Table) {
    time_over_traces::<P>(table);
    time_requests::<P>(table, "oldest page", P::FIRST, scattered);
    time_requests::<P>(table, "newest page", |_| 255, scattered);
    time_requests::<P>(table, "new page", NEW, scattered);
    time_requests::<P>(table, "oldest page, equal low halves", P::FIRST, low_half_zero);
    time_requests::<P>(table, "new page, equal low halves", NEW, low_half_zero);
}

/// The answers to previews of one page on a full buffer, added up.
fn preview_all<P: Timed>(a: u32, start: &[u32], page: u32) -> u64 {
    let record = full_record(a);
    let mut evicted = vec![0; a as usize];
    let mut ask = |page| field(7, |out| P::PREVIEW.1(&record, K, start, &mut evicted, page, out));
    (0..CALLS).map(|_| ask(opaque(page))).sum()
}

/// Previews beside the plain ones, of the page at a place of the buffer; at 256 it is a new one.
fn time_previews<P: Timed>(table: &mut Table, what: &str, a: u32, place: usize, name: fn(usize) -> u32) {
    let start: Vec<u32> = (0..K as usize).map(name).collect();
    let ours = || preview_all::<P>(a, &start, name(place));
    let plain = || {
        let mut evicted = vec![0; a as usize];
        let mut ask = |page| {
            plain::preview::preview(K as usize, a as usize, K as usize, opaque(&start), &mut evicted, page)
        };
        (0..CALLS).map(|_| u64::from(ask(opaque(name(place))))).sum::<u64>()
    };
    table.row(P::PREVIEW_JOB, format!("a {}, {}", a, what), CALLS, &mut { ours }, &mut { plain });
}

/// Previews beside requests that find the same.
fn time_beside<P: Timed>(
    table: &mut Table,
    what: &str,
    place: usize,
    page: fn(usize) -> usize,
    name: fn(usize) -> u32,
) {
    let start: Vec<u32> = (0..K as usize).map(name).collect();
    let pages: Vec<u32> = (0..CALLS).map(|call| name(page(call))).collect();
    let ours = || preview_all::<P>(1, &start, name(place));
    let requests = || serve_all::<P>(&start, &pages);
    table.row(P::BESIDE_JOB, what.to_string(), CALLS, &mut { ours }, &mut { requests });
}

fn time_policy_previews<P: Timed>(table: &mut Table) {
    const EQUAL: &str = "new page, equal low halves";
    for a in [1, 64, 256] {
        time_previews::<P>(table, "oldest page", a, 0, scattered);
        time_previews::<P>(table, "newest page", a, 255, scattered);
        time_previews::<P>(table, "new page", a, 256, scattered);
        time_previews::<P>(table, EQUAL, a, 256, low_half_zero);
    }
    time_beside::<P>(table, "oldest page", 0, P::FIRST, scattered);
    time_beside::<P>(table, "newest page", 255, |_| 255, scattered);
    time_beside::<P>(table, "new page", 256, NEW, scattered);
    time_beside::<P>(table, EQUAL, 256, NEW, low_half_zero);
}

fn time_layers(table: &mut Table) {
    for a in [1, 64] {
        for (name, pages) in traces(a, TRACE_MAX) {
            let (mut places, mut numbers) = (vec![0; TRACE_MAX], vec![0; TRACE_MAX]);
            let ours = || {
                places.fill(0);
                numbers.fill(0);
                field(1, |out| {
                    exports::layers_over_trace(K, a, opaque(&pages), &mut places, &mut numbers, out)
                })
            };
            let plain = || u64::from(plain::layers::run(K, a, opaque(&pages)).0);
            table.row("layers", name, 1, &mut { ours }, &mut { plain });
        }
    }
}

/// A full table but for one place, s = k, a 128: layers 127 and 128 are long, with pages in turn.
fn long_table(places: usize, name: fn(usize) -> u32) -> plain::layers::Table {
    let mut rows: Vec<(u32, u32)> = (0..places - 1)
        .map(|row| match row as u32 {
            single if single < 126 => (single + 1, name(row)),
            single if single < 254 => (single + 3, name(row)),
            other => (127 + other % 2, name(row)),
        })
        .collect();
    rows.sort_unstable();
    let pages = rows.iter().map(|row| row.1).collect();
    let numbers = rows.iter().map(|row| row.0).collect();
    plain::layers::Table { pages, numbers, s: K }
}

/// One request for `page` on a long table; a copy of the table for each repeat is made beforehand.
fn time_layers_request(table: &mut Table, what: String, long: &plain::layers::Table, page: u32) {
    let record = layers::Record {
        k: K,
        a: 128,
        requests: 1_000_000,
        evictions: 1_000,
        s: long.s,
        appends: 400_000,
        joins: 1_000,
        lifts: 599_000,
    };
    let places = long.pages.len() + 1;
    let (mut pages, mut numbers) = (long.pages.clone(), long.numbers.clone());
    pages.resize(places, 0);
    numbers.resize(places, 0);
    let mut lists = vec![(pages, numbers); REPEATS];
    let mut longs = vec![long.clone(); REPEATS];
    for long in &mut longs {
        long.pages.reserve(1);
        long.numbers.reserve(1);
    }
    let ours = || {
        let (mut pages, mut numbers) = lists.pop().expect("a copy for each repeat");
        field(5, |out| exports::layers_request(&record, &mut pages, &mut numbers, page, out))
    };
    let plain = || {
        let mut long = longs.pop().expect("a copy for each repeat");
        long.request(K, 128, page);
        u64::from(long.s)
    };
    let job = if places == 4_096 {
        "one layers request, 4,096 places"
    } else {
        "one layers request, 65,536 places"
    };
    table.row(job, what, 1, &mut { ours }, &mut { plain });
}

fn time_layers_requests(table: &mut Table) {
    for places in [4_096, 65_536] {
        for (naming, name) in [("", scattered as fn(usize) -> u32), (", equal low halves", low_half_zero)] {
            let long = long_table(places, name);
            let asked = [
                ("new page", name(places - 1)),
                ("newest page", long.pages[places - 2]),
                ("joining two long layers", long.pages[places - 200]),
            ];
            for (what, page) in asked {
                time_layers_request(table, format!("{}{}", what, naming), &long, page);
            }
        }
    }
}

/// Files of one trace, with their names, each beside MIN's schedule and a drawn one.
fn time_files(table: &mut Table, job: &'static str, a: u32, pages: &[u32], files: &[(String, Vec<u8>)]) {
    let best = plain::min::schedule(K, a, pages);
    let drawn = schedule_file(K, a, &legal(K, a, pages, &mut Rng::new(5)));
    for (whose, schedule) in [("MIN's schedule", &best), ("a drawn schedule", &drawn)] {
        for (name, trace) in files {
            table.row(
                job,
                format!("{}, {}", name, whose),
                1,
                &mut || judge(opaque(trace), opaque(schedule)),
                &mut || plain::judge::judge(opaque(trace), opaque(schedule)).map_or(-1, i64::from),
            );
        }
    }
}

fn time_judge(table: &mut Table) {
    for a in [1, 64] {
        for (name, pages) in traces(a, TRACE_MAX) {
            let file = trace_file(K, a, &pages);
            time_files(table, "judge", a, &pages, &[(name, file)]);
        }
    }
    for a in [1, 64] {
        let pages = tug(a, TRACE_MAX);
        time_files(table, "judge, parked tug", a, &pages, &two_editions(a, &pages));
    }
}

/// Pages fetched ahead at one request, far more than there are places.
fn time_fetches(table: &mut Table) {
    for (count, name) in [(50_000, "50,000"), (100_000, "100,000"), (200_000, "200,000")] {
        let trace = trace_file(K, 1, &[1]);
        let many: Vec<Entry> = (0..count).map(|page| Entry::Pf { t: 0, page: scattered(page + 2) }).collect();
        let schedule = schedule_file(K, 1, &many);
        table.row(
            "judge, PFs at one request",
            name.to_string(),
            1,
            &mut || judge(opaque(&trace), opaque(&schedule)) < 0,
            &mut || plain::judge::judge(opaque(&trace), opaque(&schedule)).is_none(),
        );
    }
}

/// n pages, no two of them equal, drawn from all.
fn different_pages(n: usize, rng: &mut Rng) -> Vec<u32> {
    let mut seen = HashSet::with_capacity(n);
    std::iter::repeat_with(|| rng.word()).filter(|&page| seen.insert(page)).take(n).collect()
}

/// An RR for each of some pages, of 1 to 20 requests, n in all.
fn drawn_runs(pages: &[u32], n: usize, rng: &mut Rng) -> Vec<Asked> {
    let mut left = n;
    let mut run = |&page: &u32| {
        let times = rng.between(1, 20).min(left);
        left -= times;
        Asked::Rr { page, times: times as u16 }
    };
    pages.iter().map(&mut run).take_while(|record| record.requests() > 0).collect()
}

/// Files of n requests with the names of their kinds. Pages are drawn, not made by the factor with which the
/// code spreads pages over its tables.
fn files_to_turn(n: usize) -> Vec<(&'static str, Vec<u8>)> {
    let mut rng = Rng::new(9);
    let pages = different_pages(n, &mut rng);
    let few: Vec<u32> = (0..n).map(|_| rng.pick(&pages[..4])).collect();
    let twice: Vec<u32> = pages[..n / 2].iter().flat_map(|&page| [page; 2]).collect();
    let in_runs = trace_of(K, 1, &drawn_runs(&pages, n, &mut rng));
    let of_runs = read_trace(&in_runs, n).expect("the file is sound").pages;
    let run = |page, times: usize| Asked::Rr { page, times: times as u16 };
    let ones: Vec<Asked> = pages.iter().map(|&page| run(page, 1)).collect();
    vec![
        ("all different", trace_file(K, 1, &pages)),
        ("four pages", trace_file(K, 1, &few)),
        ("each page twice", trace_file(K, 1, &twice)),
        ("runs of 1 to 20 in RRs", in_runs),
        ("these runs cut into RQs and RRs", edition(K, 1, &of_runs, &mut rng)),
        ("RRs of one request", trace_of(K, 1, &ones)),
        ("one page in two RRs", trace_of(K, 1, &[run(pages[0], n - 1), run(pages[0], 1)])),
        ("one page in RQs", trace_file(K, 1, &vec![pages[0]; n])),
    ]
}

/// The file, the most requests, the lent bytes; gives the length, or a refusal.
type PlainConversion = fn(&[u8], usize, &mut [u8]) -> Result<usize, u32>;

/// Turns a file into an edition in so many lent bytes, a short one often, and compares the bytes too.
fn time_conversion(
    table: &mut Table,
    job: &'static str,
    name: String,
    file: &[u8],
    room: usize,
    ours: exports::Conversion,
    plain: PlainConversion,
) {
    let calls = (6 * TRACE_MAX / file.len()).clamp(1, 100);
    let (mut our_bytes, mut plain_bytes) = (vec![0; room], vec![0; room]);
    let our_calls = || {
        let mut out = [0; 2];
        (0..calls).for_each(|_| ours(opaque(file), &mut our_bytes, &mut out));
        out
    };
    let plain_calls = || {
        let mut answer = Ok(0);
        (0..calls).for_each(|_| answer = plain(opaque(file), TRACE_MAX, &mut plain_bytes));
        answer.map_or_else(|refusal| [u64::from(refusal), 0], |length| [0, length as u64])
    };
    table.row(job, name.clone(), calls, &mut { our_calls }, &mut { plain_calls });
    if our_bytes != plain_bytes {
        differs(job, &[("kind", name), ("file", hex(file))], &hex(&plain_bytes), &hex(&our_bytes));
    }
}

fn time_editions(table: &mut Table) {
    let directions: [(&str, exports::Conversion, PlainConversion); 2] = [
        ("to the old edition", exports::to_old, plain::editions::to_old),
        ("to the new edition", exports::to_new, plain::editions::to_new),
    ];
    let plenty = 6 + 8 * TRACE_MAX;
    let mut files = files_to_turn(TRACE_MAX);
    files.push(("4,096 requests, all different", files_to_turn(BENCH_MAX).swap_remove(0).1));
    for (job, ours, plain) in directions {
        for (name, file) in &files {
            let exact = plain(file, TRACE_MAX, &mut vec![0; plenty]).expect("the file is sound");
            for (lent, room) in [("no byte over", exact), ("bytes over", plenty)] {
                time_conversion(table, job, format!("{}, {}", name, lent), file, room, ours, plain);
            }
        }
    }
}

/// A part and what it times.
type Part = (&'static str, &'static [fn(&mut Table)]);

/// All parts but `bench`, which needs the two programs.
const PARTS: [Part; 9] = [
    ("next", &[time_next]),
    ("min", &[time_min, time_min_schedule]),
    ("lru", &[time_policy::<Lru>]),
    ("fifo", &[time_policy::<Fifo>]),
    ("preview", &[time_policy_previews::<Lru>, time_policy_previews::<Fifo>]),
    ("layers", &[time_layers, time_layers_requests]),
    ("judge", &[time_judge, time_fetches]),
    ("editions", &[time_editions]),
    ("mark", &[mark::time_traces, mark::time_beside_layers, mark::time_requests]),
];

fn main() {
    let words: Vec<String> = std::env::args().skip(1).collect();
    let (program, plain_program) = match &words[..] {
        [program, plain_program, ..] => (program, plain_program),
        _ => panic!("usage: speed PROGRAM PLAIN_PROGRAM [PART ..]"),
    };
    let wanted = |part: &str| words.len() == 2 || words[2..].iter().any(|word| word == part);
    let mut table = Table::default();
    if wanted("bench") {
        time_bench(&mut table, program, plain_program);
    }
    for (part, jobs) in PARTS {
        if wanted(part) {
            jobs.iter().for_each(|time| time(&mut table));
        }
    }
    table.worst();
}
