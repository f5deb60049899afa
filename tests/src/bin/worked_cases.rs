//! Document 01's worked cases and those of document 02's requests, by hand, against the second
//! implementation: a reader who doubts the model starts here. Nothing of the proved crates is run.

use bench_tests::cases::Cases;
use bench_tests::mark_cases;
use bench_tests::model::editions::{convert, new_edition, old_edition, printed, Edition};
use bench_tests::model::fifo::Fifo;
use bench_tests::model::layers::{self, Layers, Possible};
use bench_tests::model::lru::Lru;
use bench_tests::model::queue::{self, Policy, Record};
use bench_tests::model::{files, judge, lines, mark, min, BENCH_MAX, TRACE_MAX};
use std::collections::BTreeSet;

const SHIFT: [u32; 8] = [1, 2, 3, 4, 2, 5, 6, 1];

fn sets(layers: &[&[u32]]) -> Layers {
    layers.iter().map(|layer| layer.iter().copied().collect()).collect()
}

/// The bundles of MIN, LRU, oldest load first, marking and the layers.
fn bundles(k: u32, a: u32, trace: &[u32]) -> [u32; 5] {
    let best = min::run(k, a, trace).map(|run| run.bundles.len() as u32);
    let recent = queue::run::<Lru>(k, a, trace).map(|run| run.bundles.len() as u32);
    let oldest = queue::run::<Fifo>(k, a, trace).map(|run| run.bundles.len() as u32);
    let marking = mark::run(mark::rdm, k, a, trace).map(|run| run.bundles.len() as u32);
    let layered = layers::run(k, a, trace).map(|run| run.record.evictions);
    [best, recent, oldest, marking, layered].map(|count| count.expect("k and a are sound"))
}

/// The pages of each bundle.
fn evicted<P: Policy>(k: u32, a: u32, trace: &[u32]) -> Vec<Vec<u32>> {
    let run = queue::run::<P>(k, a, trace).expect("k and a are sound");
    run.bundles.into_iter().map(|bundle| bundle.1).collect()
}

/// The number of bundles, and the loads.
fn totals<P: Policy>(k: u32, a: u32, trace: &[u32]) -> (usize, u32) {
    let run = queue::run::<P>(k, a, trace).expect("k and a are sound");
    (run.bundles.len(), run.loads)
}

/// One request with k 3, a 2 on a cache list of four places: the answer, the count, both lists.
fn one_request<P: Policy>(count: u32, cache: [u32; 4], page: u32) -> (u32, u32, [u32; 4], [u32; 3]) {
    let record = Record { k: 3, a: 2, requests: 3, loads: 3, evictions: 0 };
    let (mut cache, mut evicted) = (cache, [7; 3]);
    let served = queue::request::<P>(&record, count, &mut cache, &mut evicted, page).expect("it is sound");
    (served.answer, served.count, cache, evicted)
}

/// A preview of a request on a record of k 3, a 2 and so many requests: requests, loads, evictions, count and
/// answer of the copy, or the refusal; the evicted list.
fn one_preview<P: Policy>(
    requests: u32,
    count: u32,
    page: u32,
    room: usize,
) -> (Result<[u32; 5], u32>, Vec<u32>) {
    let record = Record { k: 3, a: 2, requests, loads: 3, evictions: 0 };
    let mut evicted = vec![7; room];
    let told = queue::preview::<P>(&record, count, &[5, 6, 8, 9], &mut evicted, page);
    let fields = told.map(|copy| {
        let Record { requests, loads, evictions, .. } = copy.record;
        [requests, loads, evictions, copy.count, copy.answer]
    });
    (fields, evicted)
}

/// The answers to a list of layer requests on a table of some places, and the record after the last.
fn layer_requests(k: u32, a: u32, places: usize, trace: &[u32]) -> Result<(Vec<u32>, layers::Record), u32> {
    let mut record = layers::Record::empty(k, a);
    let mut answers = Vec::new();
    let (mut pages, mut numbers) = (vec![0; places], vec![0; places]);
    for &page in trace {
        let (next, rule) = layers::request(&record, &mut pages, &mut numbers, page)?;
        record = next;
        answers.push(rule as u32);
    }
    Ok((answers, record))
}

/// s after the last of a list of layer requests on a table of some places.
fn last_s(k: u32, a: u32, places: usize, trace: &[u32]) -> Result<u32, u32> {
    layer_requests(k, a, places, trace).map(|(_, record)| record.s)
}

fn marked(cases: &mut Cases) {
    let file = files::trace_file(3, 2, &SHIFT);
    cases.same("the shift's bytes", file.len(), 54);
    cases.same(
        "1",
        lines::lines(&file),
        "trace 3 2 8\nmin 2 7\nlru 3 8\nfifo 3 8\nmark 3 8\nlayers 2 3 2\n".to_string(),
    );
    let best = min::run(3, 2, &SHIFT).map(|run| run.bundles);
    cases.same("2", best, Ok(vec![(3, vec![3, 1]), (6, vec![4, 2])]));
    cases.same("3", evicted::<Lru>(3, 2, &SHIFT), vec![vec![1, 2], vec![3, 4], vec![2, 5]]);
    let layered = layers::run(3, 2, &SHIFT).map(|run| run.layers);
    cases.same("4", layered, Ok(sets(&[&[2, 4, 5], &[6], &[1]])));
    cases.same("7", bundles(2, 2, &[1, 2, 3]), [1; 5]);
    cases.same("7, s", last_s(2, 2, 3, &[1, 2, 3]), Ok(1));
    cases.same("8", bundles(1, 1, &[1, 2, 1]), [2; 5]);
    cases.same("9", last_s(2, 1, 2, &[1, 2, 3]), Err(10));
    cases.same("9, a 2", last_s(2, 2, 2, &[1, 2, 3]), Ok(1));
    cases.same("10", last_s(2, 1, 3, &[1, 2, 3, 1, 4]), Ok(2));
}

/// Cases 5 and 6: sets after seven requests.
fn questions(cases: &mut Cases) {
    let run = layers::run(3, 2, &SHIFT[..7]).expect("k and a are sound");
    let (mut pages, mut numbers) = ([0; 9], [0; 9]);
    layers::write_table(&run.layers, &mut pages, &mut numbers);
    let ask = |set: &[u32]| layers::possible(&run.record, &pages, &numbers, set);
    cases.same("5", ask(&[5, 6]), Ok(Possible::Yes));
    cases.same("6, first", ask(&[2, 4]), Ok(Possible::BreaksAt(1)));
    cases.same("6, second", ask(&[1, 6]), Ok(Possible::BreaksAt(0)));
    cases.same("6, third", ask(&[6]), Ok(Possible::CountDiffers));
    cases.same("6, fourth", ask(&[6, 6]), Err(11));
    let after = min::run_until(3, 2, &[1, 2, 3, 4, 2, 5, 6, 5, 6], 7).map(|run| run.held);
    cases.same("5, MIN", after, Ok(BTreeSet::from([5, 6])));
}

fn others(cases: &mut Cases) {
    cases.same("k 256", bundles(256, 256, &SHIFT), [0; 5]);
    cases.same("k 257", min::run(257, 1, &SHIFT), Err(1));
    cases.same("a = k", bundles(3, 3, &SHIFT), [2; 5]);
    cases.same("a = k + 1", min::run(3, 4, &SHIFT), Err(2));
    let mut bytes = [7; 40];
    let length =
        |trace: &[u32], bytes: &mut [u8]| min::write(3, 2, trace, bytes).map(|written| written.length);
    cases.same("an empty trace", length(&[], &mut bytes), Ok(6));
    let empty = files::trace_file(3, 2, &[]);
    cases.same(
        "its lines",
        lines::lines(&empty),
        "trace 3 2 0\nmin 0 0\nlru 0 0\nfifo 0 0\nmark 0 0\nlayers 0 0 0\n".to_string(),
    );
    cases.same("5 5 5", min::run(3, 2, &[5, 5, 5]).map(|run| (run.bundles, run.loads)), Ok((vec![], 1)));
    let mut bytes = [7; 40];
    cases.same("37 bytes", length(&SHIFT, &mut bytes[..37]), Err(8));
    cases.same("37 bytes, untouched", bytes, [7; 40]);
    cases.same("38 bytes", length(&SHIFT, &mut bytes), Ok(38));
    cases.same("bytes past them", bytes[38..].to_vec(), vec![7, 7]);
    let trace = files::trace_file(3, 2, &SHIFT);
    cases.same("its judgement", judge::judge(&trace, &bytes[..38]), Ok(2));
    cases.same("KA alone", judge::judge(&trace, &bytes[..6]), Err(7));
    cases.same("4 5 6 4", totals::<Lru>(3, 2, &[1, 2, 3, 4, 5, 6, 4]).1, 7);
}

/// The readings' cases of places between the count and k, and of the evicted list.
fn places<P: Policy>(cases: &mut Cases, policy: &str) {
    let mut same = |name, got, expected| cases.same(&format!("{}, {}", policy, name), got, expected);
    same("a hit, count 1", one_request::<P>(1, [5, 9, 9, 9], 5), (0, 1, [5, 0, 0, 9], [7, 7, 7]));
    same("a load", one_request::<P>(1, [5, 9, 9, 9], 8), (1, 2, [5, 8, 0, 9], [7, 7, 7]));
    same("a bundle", one_request::<P>(3, [5, 6, 8, 9], 1), (2, 2, [8, 1, 0, 9], [5, 6, 7]));
}

/// Oldest load first, beside LRU where they differ: a hit moves the page in one of them only.
fn oldest_load(cases: &mut Cases) {
    cases.same("the shift, oldest load", totals::<Fifo>(3, 2, &SHIFT), (3, 8));
    cases.same("its bundles", evicted::<Fifo>(3, 2, &SHIFT), vec![vec![1, 2], vec![3, 4], vec![2, 5]]);
    cases.same("1 4 1, LRU", totals::<Lru>(3, 1, &[1, 2, 3, 1, 4, 1]), (1, 4));
    cases.same("1 4 1, oldest load", totals::<Fifo>(3, 1, &[1, 2, 3, 1, 4, 1]), (2, 5));
    cases.same("1 4 2, LRU", totals::<Lru>(3, 1, &[1, 2, 3, 1, 4, 2]), (2, 5));
    cases.same("1 4 2, oldest load", totals::<Fifo>(3, 1, &[1, 2, 3, 1, 4, 2]), (1, 4));
    cases.same("the bundle for 4, LRU", evicted::<Lru>(3, 1, &[1, 2, 3, 1, 4]), vec![vec![2]]);
    cases.same("the bundle for 4, oldest load", evicted::<Fifo>(3, 1, &[1, 2, 3, 1, 4]), vec![vec![1]]);
    let again = vec![vec![1], vec![2], vec![3], vec![4], vec![1]];
    cases.same("1 loaded again is newest", evicted::<Fifo>(3, 1, &[1, 2, 3, 4, 1, 5, 6, 7]), again);
    let full = [5, 6, 8, 9];
    cases.same("a hit, LRU", one_request::<Lru>(3, full, 5), (0, 3, [6, 8, 5, 9], [7, 7, 7]));
    cases.same("a hit, oldest load", one_request::<Fifo>(3, full, 5), (0, 3, full, [7, 7, 7]));
}

/// What a request would answer and evict: a hit, a load of a page past the count, a bundle, three refusals.
fn previews<P: Policy>(cases: &mut Cases, policy: &str) {
    let name = |what: &str| format!("preview, {}, {}", policy, what);
    cases.same(&name("a hit"), one_preview::<P>(3, 3, 5, 2), (Ok([4, 3, 0, 3, 0]), vec![7, 7]));
    cases.same(&name("a load"), one_preview::<P>(3, 2, 8, 3), (Ok([4, 4, 0, 3, 1]), vec![7, 7, 7]));
    cases.same(&name("a bundle"), one_preview::<P>(3, 3, 9, 3), (Ok([4, 4, 1, 2, 2]), vec![5, 6, 7]));
    cases.same(&name("a short list"), one_preview::<P>(3, 3, 5, 1), (Err(8), vec![7]));
    cases.same(&name("fewer requests than loads"), one_preview::<P>(2, 3, 9, 2), (Err(9), vec![7, 7]));
    cases.same(&name("a full counter"), one_preview::<P>(u32::MAX, 3, 9, 2), (Err(12), vec![7, 7]));
}

/// The layer that a "no" names: the smallest of one, of several in a row and of two apart; the count comes
/// first, and 11 before it.
fn lowest_layer(cases: &mut Cases) {
    let ask = |k, a, last: u32, set: &[u32]| {
        let trace: Vec<u32> = (1..=last).collect();
        let run = layers::run(k, a, &trace).expect("k and a are sound");
        let (mut pages, mut numbers) = ([0; 9], [0; 9]);
        layers::write_table(&run.layers, &mut pages, &mut numbers);
        layers::possible(&run.record, &pages, &numbers, set)
    };
    cases.same("{1}, {2}, {3}: 7 8 9", ask(3, 1, 3, &[7, 8, 9]), Ok(Possible::BreaksAt(0)));
    cases.same("8 3 7", ask(3, 1, 3, &[8, 3, 7]), Ok(Possible::BreaksAt(0)));
    cases.same("7 8", ask(3, 1, 3, &[7, 8]), Ok(Possible::CountDiffers));
    cases.same("7 8 9 10", ask(3, 1, 3, &[7, 8, 9, 10]), Ok(Possible::CountDiffers));
    cases.same("7 8 7", ask(3, 1, 3, &[7, 8, 7]), Err(11));
    cases.same("3 1 2", ask(3, 1, 3, &[3, 1, 2]), Ok(Possible::Yes));
    cases.same("{1}, {2, 3, 4}, {5}: 2 3 9", ask(4, 2, 5, &[2, 3, 9]), Ok(Possible::BreaksAt(0)));
    cases.same("2 3 4", ask(4, 2, 5, &[2, 3, 4]), Ok(Possible::BreaksAt(2)));
    cases.same(
        "{1, 2, 3, 4}, {5}, {6}, {7}: 1 2 3 4",
        ask(4, 3, 7, &[1, 2, 3, 4]),
        Ok(Possible::BreaksAt(1)),
    );
    cases.same("0 5 6 7", ask(4, 3, 7, &[0, 5, 6, 7]), Ok(Possible::BreaksAt(0)));
    cases.same("no layers, no page", ask(3, 1, 0, &[]), Ok(Possible::Yes));
    cases.same("no layers, 7", ask(3, 1, 0, &[7]), Ok(Possible::CountDiffers));
}

/// The order of pages never requested again: by age, not by number; by the last request, not by the load nor by one
/// before the page left and came back; and before the pages that are requested again.
fn never_again(cases: &mut Cases) {
    let bundles = |k, a, trace: &[u32]| min::run(k, a, trace).map(|run| run.bundles);
    cases.same("by age", bundles(3, 2, &[9, 5, 7, 1]), Ok(vec![(3, vec![9, 5])]));
    cases.same("the largest page", bundles(2, 2, &[u32::MAX, 0, 1]), Ok(vec![(2, vec![u32::MAX, 0])]));
    cases.same(
        "by the last request",
        bundles(3, 1, &[1, 2, 3, 1, 4, 5, 6]),
        Ok(vec![(4, vec![2]), (5, vec![3]), (6, vec![1])]),
    );
    cases.same(
        "loaded again",
        bundles(2, 2, &[1, 2, 3, 1, 4, 5]),
        Ok(vec![(2, vec![2, 1]), (4, vec![3, 1])]),
    );
    let mixed = [7, 1, 8, 2, 3, 1, 2];
    cases.same("before the others", bundles(4, 4, &mixed), Ok(vec![(4, vec![7, 8, 2, 1])]));
    cases.same("before the others, a 3", bundles(4, 3, &mixed), Ok(vec![(4, vec![7, 8, 2])]));
}

/// Which layer rule applied, and the counts of the three.
fn layer_rules(cases: &mut Cases) {
    let served = |k, a, trace: &[u32]| {
        let (answers, record) = layer_requests(k, a, 9, trace).expect("the requests are sound");
        (answers, [record.appends, record.joins, record.lifts])
    };
    cases.same("the shift's rules", served(3, 2, &SHIFT), (vec![1, 1, 1, 2, 3, 1, 2, 1], [5, 2, 1]));
    cases.same("the rules of seven", served(3, 2, &SHIFT[..7]), (vec![1, 1, 1, 2, 3, 1, 2], [4, 2, 1]));
    cases.same("7, the rules", served(2, 2, &[1, 2, 3]), (vec![1, 1, 2], [2, 1, 0]));
    cases.same("1 2 1 1, the rules", served(1, 1, &[1, 2, 1, 1]), (vec![1, 2, 2, 3], [1, 2, 1]));
    let revealed = |requests, evictions, [appends, joins, lifts]: [u32; 3]| {
        let record = layers::Record { k: 3, a: 2, requests, evictions, s: 1, appends, joins, lifts };
        layers::revealed(&record, &[5], &[1])
    };
    cases.same("counts that add up", revealed(7, 2, [4, 2, 1]), Ok(1));
    cases.same("no counts", revealed(7, 2, [0, 0, 0]), Err(9));
    cases.same("one too few", revealed(7, 2, [4, 2, 0]), Err(9));
    cases.same("one too many", revealed(7, 2, [5, 2, 1]), Err(9));
    cases.same("joins apart from evictions", revealed(7, 2, [4, 1, 2]), Err(9));
    cases.same("the largest sum", revealed(u32::MAX, 2, [u32::MAX - 3, 2, 1]), Ok(1));
    cases.same("a sum of 2^32", revealed(0, 0, [u32::MAX, 0, 1]), Err(9));
}

/// A run of one page stands for its single requests: the same lines, whatever records a trace is in.
fn runs(cases: &mut Cases) {
    let run = |page, times| files::Asked::Rr { page, times };
    let one = |page| files::Asked::Rq { page };
    let tug = files::trace_of(3, 2, &[run(5, 3)]);
    cases.same("5 x 3's bytes", tug.clone(), b"KA\x03\0\x02\0RR\x05\0\0\0\x03\0".to_vec());
    let line = "trace 3 2 3\nmin 0 1\nlru 0 1\nfifo 0 1\nmark 0 1\nlayers 0 1 1\n".to_string();
    cases.same("5 x 3", lines::lines(&tug), line.clone());
    cases.same("5 5 5", lines::lines(&files::trace_file(3, 2, &[5, 5, 5])), line.clone());
    cases.same("5 x 2, 5", lines::lines(&files::trace_of(3, 2, &[run(5, 2), one(5)])), line.clone());
    cases.same("5 x 1, 5 x 2", lines::lines(&files::trace_of(3, 2, &[run(5, 1), run(5, 2)])), line);
    let shift = files::trace_of(3, 2, &SHIFT.map(|page| run(page, 1)));
    cases.same("the shift in runs of one, bytes", shift.len(), 70);
    cases.same(
        "the shift in runs of one",
        files::read_trace(&shift, 8).map(|trace| trace.pages),
        Ok(SHIFT.to_vec()),
    );
    let parked =
        files::trace_of(3, 2, &[one(1), one(2), one(3), one(4), run(2, 300), one(5), one(6), run(1, 2)]);
    cases.same("the shift with a parked tug, bytes", parked.len(), 58);
    cases.same(
        "the shift with a parked tug",
        lines::lines(&parked),
        "trace 3 2 308\nmin 2 7\nlru 3 8\nfifo 3 8\nmark 3 8\nlayers 2 3 2\n".to_string(),
    );
    let best = files::read_trace(&parked, 308).and_then(|trace| min::run(3, 2, &trace.pages));
    cases.same("its bundles", best.map(|run| run.bundles), Ok(vec![(3, vec![3, 1]), (305, vec![4, 2])]));
}

/// The reader and the writer of an RR, and which refusal comes first.
fn run_records(cases: &mut Cases) {
    let file = b"KA\x03\0\x02\0RR\x05\0\0\0\x02\x01RQ\x05\0\0\0RR\x05\0\0\0\0\0";
    let found = |page, times, next| Ok(files::Found::Request { page, times, next });
    cases.same("a run, read", files::trace_record(file, 6), found(5, 258, 14));
    cases.same("a request, read", files::trace_record(file, 14), found(5, 1, 20));
    cases.same("no times", files::trace_record(file, 20), Err(13));
    cases.same("no times, cut", files::trace_record(&file[..27], 20), Err(5));
    cases.same("a run cut to its mark", files::trace_record(&file[..8], 6), Err(5));
    cases.same("a run cut to a byte", files::trace_record(&file[..7], 6), Err(5));
    cases.same("a run first", files::trace_record(&file[6..], 0), Err(4));
    cases.same("a run's mark first", files::trace_record(b"RR", 0), Err(4));
    cases.same("a run in a schedule", files::schedule_record(file, 6, 256), Err(4));
    cases.same("a run's mark in a schedule", files::schedule_record(&file[..8], 6, 256), Err(4));
    let mut bytes = [7; 10];
    cases.same("13 before 9", files::write_run(&mut bytes, 11, 5, 0), Err(13));
    cases.same("13 before 8", files::write_run(&mut bytes, 3, 5, 0), Err(13));
    cases.same("9", files::write_run(&mut bytes, 11, 5, 1), Err(9));
    cases.same("8", files::write_run(&mut bytes, 3, 5, 1), Err(8));
    cases.same("nothing written", bytes, [7; 10]);
    cases.same("written", files::write_run(&mut bytes, 1, 5, 258), Ok(9));
    cases.same("its bytes", bytes, *b"\x07RR\x05\0\0\0\x02\x01\x07");
}

/// Traces with runs at the limit of requests, and schedules with records inside runs.
fn run_limits(cases: &mut Cases) {
    let head = files::trace_of(2, 1, &[files::Asked::Rr { page: 7, times: 3 }]);
    let read = |tail: &[u8], most| {
        let trace = files::read_trace(&[&head[..], tail].concat(), most);
        trace.map(|trace| trace.pages.len())
    };
    let none = b"RR\x07\0\0\0\0\0";
    let (one, two) = (b"RR\x07\0\0\0\x01\0", b"RR\x07\0\0\0\x02\0XX");
    cases.same("the limit met", read(b"", 3), Ok(3));
    cases.same("the limit passed by a run", read(b"", 2), Err(3));
    cases.same("3 whatever follows", read(none, 2), Err(3));
    cases.same("no times behind the limit", read(none, 3), Err(13));
    cases.same("a cut run behind the limit", read(&none[..7], 3), Err(5));
    cases.same("no mark behind the limit", read(b"XX", 3), Err(4));
    cases.same("one more meets it", read(one, 4), Ok(4));
    cases.same("two more pass it", read(two, 4), Err(3));
    cases.same("two more meet it", read(two, 5), Err(4));
    let mut list = [9; 5];
    cases.same("a list too short", files::fill_trace(&head, &mut list[..2]), Err(3));
    cases.same("it is left", list, [9; 5]);
    cases.same("a list", files::fill_trace(&head, &mut list).map(|trace| trace.pages.len()), Ok(3));
    cases.same("its first places", list, [7, 7, 7, 9, 9]);
    let judged = |t, page| {
        let entries = [files::Entry::Ev { t, pages: vec![page] }];
        judge::judge(&head, &files::schedule_file(2, 1, &entries))
    };
    cases.same("an EV inside a run", judged(1, 7), Ok(1));
    cases.same("an EV at its first request", judged(0, 7), Err(6));
    cases.same("an EV at its last request", judged(2, 7), Ok(1));
    cases.same("an EV behind it", judged(3, 7), Err(6));
}

/// A sound file in the old edition and in the new one, whatever its number of requests.
fn both_editions(file: &[u8]) -> [Vec<u8>; 2] {
    [old_edition, new_edition].map(|edition| {
        let mut bytes = vec![7; 6 + 6 * 2 * TRACE_MAX];
        let length = convert(edition, file, usize::MAX, &mut bytes).expect("the file is sound");
        bytes.truncate(length);
        bytes
    })
}

/// The two editions of small traces: what is a run is said by the requests, not by the records.
fn editions(cases: &mut Cases) {
    let fives = b"KA\x03\0\x02\0RQ\x05\0\0\0RR\x05\0\0\0\x03\0RQ\x05\0\0\0";
    let single = b"KA\x03\0\x02\0RQ\x05\0\0\0RQ\x05\0\0\0RQ\x05\0\0\0RQ\x05\0\0\0RQ\x05\0\0\0";
    let run = b"KA\x03\0\x02\0RR\x05\0\0\0\x05\0";
    cases.same("5, 5 x 3, 5", both_editions(fives), [single.to_vec(), run.to_vec()]);
    cases.same("5 5 5 5 5", both_editions(single), [single.to_vec(), run.to_vec()]);
    cases.same("5 x 5", both_editions(run), [single.to_vec(), run.to_vec()]);
    let empty = b"KA\0\x01\x01\0".to_vec();
    cases.same("no request", both_editions(&empty), [empty.clone(), empty]);
    let one = b"KA\x03\0\x02\0RQ\x04\x03\x02\x01".to_vec();
    let one_run = b"KA\x03\0\x02\0RR\x04\x03\x02\x01\x01\0";
    cases.same("a run of one", both_editions(one_run), [one.clone(), one]);
    let zeros = b"KA\x01\0\x01\0RQ\0\0\0\0RQ\0\0\0\0".to_vec();
    let zero_run = b"KA\x01\0\x01\0RR\0\0\0\0\x02\0".to_vec();
    cases.same("page 0 twice", both_editions(&zeros), [zeros.clone(), zero_run]);
    let mixed = b"KA\x02\0\x01\0RR\x08\0\0\0\x01\0RQ\x08\0\0\0RR\x09\0\0\0\x01\0RQ\x08\0\0\0";
    let old = b"KA\x02\0\x01\0RQ\x08\0\0\0RQ\x08\0\0\0RQ\x09\0\0\0RQ\x08\0\0\0".to_vec();
    let new = b"KA\x02\0\x01\0RR\x08\0\0\0\x02\0RQ\x09\0\0\0RQ\x08\0\0\0".to_vec();
    cases.same("8 x 1, 8, 9 x 1, 8", both_editions(mixed), [old.clone(), new.clone()]);
    cases.same("its new edition back", both_editions(&new), [old, new]);
    let shift = files::trace_file(3, 2, &SHIFT);
    cases.same("the shift in both editions", both_editions(&shift), [shift.clone(), shift]);
}

/// Runs around 65,535 and its double in the new edition, from any records, and back.
fn long_editions(cases: &mut Cases) {
    let (head, one, two): (&[u8], &[u8], &[u8]) = (b"KA\x03\0\x02\0", b"RQ\x05\0\0\0", b"RR\x05\0\0\0\x02\0");
    let (almost, full): (&[u8], &[u8]) = (b"RR\x05\0\0\0\xfe\xff", b"RR\x05\0\0\0\xff\xff");
    for (requests, records) in [
        (65_534, vec![almost]),
        (65_535, vec![full]),
        (65_536, vec![full, one]),
        (65_537, vec![full, two]),
        (131_070, vec![full, full]),
        (131_071, vec![full, full, one]),
    ] {
        let single = [head, &one.repeat(requests)].concat();
        let longest = [head, &records.concat()].concat();
        let both = [single.clone(), longest.clone()];
        cases.same(&format!("{} requests in RQs", requests), both_editions(&single), both.clone());
        cases.same(&format!("{} requests, back", requests), both_editions(&longest), both.clone());
        let left = requests - 1;
        let others = [head, one, &two.repeat(left / 2), &one.repeat(left % 2)].concat();
        cases.same(&format!("{} requests in twos", requests), both_editions(&others), both);
    }
    let straddling = [head, one, full].concat();
    cases.same("1 and 65,535", both_editions(&straddling)[1].clone(), [head, full, one].concat());
}

/// Which refusal an edition has: the file's own before 8, and 8 for the whole output with nothing written.
fn edition_refusals(cases: &mut Cases) {
    let file = b"KA\x03\0\x02\0RR\x05\0\0\0\x02\0RQ\x06\0\0\0";
    let wrong: [(&str, &[u8], u32); 6] = [
        ("no byte", b"", 5),
        ("no mark", b"XX", 4),
        ("k 0", b"KA\0\0\0\0", 1),
        ("a 0", b"KA\x01\0\0\0", 2),
        ("no times", b"KA\x03\0\x02\0RQ\x05\0\0\0RR\x05\0\0\0\0\0", 13),
        ("a cut", &file[..19], 5),
    ];
    let editions: [(&str, Edition, usize); 2] = [("old", old_edition, 24), ("new", new_edition, 20)];
    for (name, edition, length) in editions {
        let mut bytes = [7; 30];
        let mut turn = |file: &[u8], most, room: usize| convert(edition, file, most, &mut bytes[..room]);
        for room in [0, 5, 6, 12, 14, length - 1] {
            cases.same(&format!("{}, {} bytes", name, room), turn(file, 3, room), Err(8));
        }
        for (what, wrong, refusal) in wrong {
            cases.same(&format!("{}, {}, no room", name, what), turn(wrong, 3, 0), Err(refusal));
            cases.same(&format!("{}, {}, room", name, what), turn(wrong, 3, 30), Err(refusal));
        }
        cases.same(&format!("{}, 3 before 8", name), turn(file, 2, 0), Err(3));
        cases.same(&format!("{}, nothing written", name), bytes, [7; 30]);
        let written = convert(edition, file, 3, &mut bytes[..length]);
        cases.same(&format!("{}, bytes enough", name), written, Ok(length));
        cases.same(&format!("{}, bytes past them", name), bytes[length..].to_vec(), vec![7; 30 - length]);
    }
}

/// What the two programs print.
fn edition_programs(cases: &mut Cases) {
    let text = |edition, input: &[u8]| String::from_utf8_lossy(&printed(edition, input)).into_owned();
    let file = b"KA\x03\0\x02\0RQ&a3.RQ&a3.";
    cases.same("to_old", text(old_edition, file), "KA\x03\0\x02\0RQ&a3.RQ&a3.".to_string());
    cases.same("to_new", text(new_edition, file), "KA\x03\0\x02\0RR&a3.\x02\0".to_string());
    let most = files::trace_file(3, 2, &[5; BENCH_MAX]);
    cases.same("to_old, 4,096 requests", printed(old_edition, &most), most.clone());
    let run = "KA\x03\0\x02\0RR\x05\0\0\0\0\x10".to_string();
    cases.same("to_new, 4,096 requests", text(new_edition, &most), run);
    let more = files::trace_file(3, 2, &[5; BENCH_MAX + 1]);
    let no_times = b"KA\x03\0\x02\0RR\x05\0\0\0\0\0";
    for edition in [old_edition, new_edition] {
        cases.same("4,097 requests", text(edition, &more), "refused 3\n".to_string());
        cases.same("nothing", text(edition, b""), "refused 5\n".to_string());
        cases.same("no times", text(edition, no_times), "refused 13\n".to_string());
    }
}

fn main() {
    let mut cases = Cases::default();
    marked(&mut cases);
    questions(&mut cases);
    others(&mut cases);
    places::<Lru>(&mut cases, "LRU");
    places::<Fifo>(&mut cases, "oldest load");
    oldest_load(&mut cases);
    previews::<Lru>(&mut cases, "LRU");
    previews::<Fifo>(&mut cases, "oldest load");
    layer_rules(&mut cases);
    lowest_layer(&mut cases);
    never_again(&mut cases);
    runs(&mut cases);
    run_records(&mut cases);
    run_limits(&mut cases);
    editions(&mut cases);
    long_editions(&mut cases);
    edition_refusals(&mut cases);
    edition_programs(&mut cases);
    mark_cases::all(&mut cases);
    println!("worked cases: {} agree", cases.0);
}
