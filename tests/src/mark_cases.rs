//! Cases of marking, by hand: each comment says how a figure comes about, so that it can be followed without
//! the model. `bin/marking.rs` works out all small traces a second way.
//!
//! A priority is 9t - t0. A request of a page that is not revealed makes t one more, so where no revealed
//! page is asked for, request number n (from 1) has t = n, and a page asked for from L0 gets 9n - n, or 8n.

use crate::cases::Cases;
use crate::model::fifo::Fifo;
use crate::model::lru::Lru;
use crate::model::mark::{self, Lists, Record};
use crate::model::{layers, queue, Refusal};

/// A record with its lists.
#[derive(Clone, Debug, PartialEq)]
struct Desk {
    record: Record,
    count: u32,
    cache: Vec<u32>,
    marks: Vec<u32>,
    priorities: Vec<u64>,
    evicted: Vec<u32>,
    pages: Vec<u32>,
    numbers: Vec<u32>,
    times: Vec<u32>,
}

impl Desk {
    /// The empty record, no place to spare but in the table.
    fn empty(k: u32, a: u32) -> Self {
        let (places, table) = (vec![0; k as usize], vec![0; 12]);
        Desk {
            record: Record::empty(k, a),
            count: 0,
            cache: places.clone(),
            marks: places.clone(),
            priorities: vec![0; k as usize],
            evicted: vec![0; a as usize],
            pages: table.clone(),
            numbers: table.clone(),
            times: table,
        }
    }

    /// Asks for a page; an accepted request's record and count are taken over.
    fn ask(&mut self, page: u32) -> Result<u32, Refusal> {
        let mut lists = Lists {
            cache: &mut self.cache,
            marks: &mut self.marks,
            priorities: &mut self.priorities,
            evicted: &mut self.evicted,
            pages: &mut self.pages,
            numbers: &mut self.numbers,
            times: &mut self.times,
        };
        let served = mark::request(&self.record, self.count, &mut lists, page)?;
        self.record = served.record;
        self.count = served.count;
        Ok(served.answer)
    }

    /// After some requests.
    fn after(k: u32, a: u32, trace: &[u32]) -> Self {
        let mut desk = Desk::empty(k, a);
        for &page in trace {
            desk.ask(page).expect("the request is sound");
        }
        desk
    }

    fn place(&self, page: u32) -> usize {
        let held = &self.cache[..self.count as usize];
        held.iter().position(|&other| other == page).expect("the page is cached")
    }

    fn priority(&self, page: u32) -> u64 {
        self.priorities[self.place(page)]
    }

    /// Each used place of the table: layer, page, t0.
    fn table(&self) -> Vec<(u32, u32, u32)> {
        let used = self.numbers.iter().filter(|&&number| number > 0).count();
        (0..used).map(|place| (self.numbers[place], self.pages[place], self.times[place])).collect()
    }

    /// The cached pages: page, mark, priority.
    fn cached(&self) -> Vec<(u32, u32, u64)> {
        let row = |place: usize| (self.cache[place], self.marks[place], self.priorities[place]);
        (0..self.count as usize).map(row).collect()
    }
}

/// Answers to a trace, the priority of each page when it was asked for, and the bundles.
fn walk(k: u32, a: u32, trace: &[u32]) -> (Vec<u32>, Vec<u64>, Vec<Vec<u32>>) {
    let mut desk = Desk::empty(k, a);
    let (mut answers, mut priorities, mut bundles) = (vec![], vec![], vec![]);
    for &page in trace {
        let answer = desk.ask(page).expect("the request is sound");
        answers.push(answer);
        priorities.push(desk.priority(page));
        if answer == 2 {
            bundles.push(desk.evicted.clone());
        }
    }
    (answers, priorities, bundles)
}

/// The shift with k 3, a 2. The layers: {1}, {1}{2}, {1}{2}{3}; 4 joins: {1,2,3}{4}; 2 is lifted and 1 and 3
/// fall to L0: {4}{2}; {4}{2}{5}; 6 joins: {4,2,5}{6}; {4,2,5}{6}{1}. No request is of a revealed page: 2 was
/// in a layer of three. So t is the request's number. All are from L0, hence 8t, but for 2 at t = 5: its t0
/// is 2, and 45 - 2 is 43. 2 had left the cache then. At 4 the marks of 1, 2, 3 are cleared, and 1 and 2 have the
/// lowest priorities. At 5 only 3 is unmarked; of the marked 2 and 4 the latter's 32 is lower. At 6 marks are
/// cleared, and there is room. At the last request 2 and 5 are unmarked.
fn the_shift(cases: &mut Cases) {
    let (answers, priorities, bundles) = walk(3, 2, &[1, 2, 3, 4, 2, 5, 6, 1]);
    cases.same("mark, the shift", answers, vec![1, 1, 1, 2, 1, 2, 1, 2]);
    cases.same("mark, its priorities", priorities, vec![8, 16, 24, 32, 43, 48, 56, 64]);
    cases.same("mark, its bundles", bundles, vec![vec![1, 2], vec![3, 4], vec![2, 5]]);
    let at_five = Desk::after(3, 2, &[1, 2, 3, 4, 2]);
    cases.same("mark, before 5", at_five.cached(), vec![(2, 1, 43), (3, 0, 24), (4, 1, 32)]);
    let end = Desk::after(3, 2, &[1, 2, 3, 4, 2, 5, 6, 1]);
    let rows = vec![(1, 2, 2), (1, 4, 4), (1, 5, 6), (2, 6, 7), (3, 1, 8)];
    cases.same("mark, its table", end.table(), rows);
    cases.same("mark, its cache", end.cached(), vec![(1, 1, 64), (6, 1, 56)]);
    let Record { requests, loads, evictions, t, layers, .. } = end.record;
    cases.same("mark, its counts", [requests, loads, evictions, t], [8, 8, 3, 8]);
    let layers::Record { requests, evictions, s, appends, joins, lifts, .. } = layers;
    cases.same(
        "mark, its layers' counts",
        [requests, evictions, s, appends, joins, lifts],
        [8, 2, 3, 5, 2, 1],
    );
}

/// When t rises. A page is revealed or not as the layers are before its request: after it, every page is.
fn times(cases: &mut Cases) {
    // 5 is revealed from its second request on, so t stays 1 and its priority 9 - 1.
    cases.same("mark, 5 5 5", walk(3, 2, &[5, 5, 5]), (vec![1, 0, 0], vec![8, 8, 8], vec![]));
    cases.same("mark, 5 5 5, t", Desk::after(3, 2, &[5, 5, 5]).record.t, 1);
    // k 4, a 2: after 1 to 5 the layers are {1}{2,3,4}{5}. 1 is alone in its layer, yet not revealed, and t
    // gets 6: 54 - 1. The layers are {2,3,4}{5}{1} then. 5 is revealed now, t stays 6: 54 - 5. 3 is not, and
    // t gets 7: 63 - 3.
    let (_, priorities, _) = walk(4, 2, &[1, 2, 3, 4, 5, 1, 5, 3]);
    cases.same("mark, alone below others", priorities, vec![8, 16, 24, 32, 40, 53, 49, 60]);
}

/// t0 lives as long as a layer above L0 has the page.
fn remembered(cases: &mut Cases) {
    // A page that is cached falls to L0: 2 is lifted out of {1,2,3}. 3 keeps its priority, and has no t0 any
    // more.
    let fallen = Desk::after(3, 2, &[1, 2, 3, 4, 2]);
    cases.same("mark, 3 fell to L0", fallen.table(), vec![(1, 4, 4), (2, 2, 2)]);
    cases.same("mark, its priority stays", fallen.priority(3), 24);
    // Asked for again it comes from L0: t0 = 6, 54 - 6; with its old t0 it would be 51.
    let (answers, priorities, _) = walk(3, 2, &[1, 2, 3, 4, 2, 3]);
    cases.same("mark, 3 again is a hit", answers[5], 0);
    cases.same("mark, 3 again is from L0", priorities[5], 48);
    // The page that is lifted out of L1 keeps its t0: 3 out of {1,2,3} at t = 5: 45 - 3.
    cases.same("mark, lifted out of L1", walk(3, 2, &[1, 2, 3, 4, 3]).1[4], 42);
    // a = k: all layers fall to L0 when 3 joins. 1 again: t0 = 4, 36 - 4; with its old t0 it would be 35.
    let all_fell = walk(2, 2, &[1, 2, 3, 1]);
    cases.same("mark, a = k", all_fell, (vec![1, 1, 2, 1], vec![8, 16, 24, 32], vec![vec![1, 2]]));
    cases.same("mark, a = k, the table", Desk::after(2, 2, &[1, 2, 3]).table(), vec![(1, 3, 3)]);
    // Not cached, but in a layer: k 3, a 2, after 1 to 5 the cache has 3, 4, 5 and the layers are
    // {1,2,3}{4}{5}. 1 is lifted: t = 6, 54 - 1, and takes the place of 3 (unmarked) and 4 (the lower of the
    // two marked).
    let (_, priorities, bundles) = walk(3, 2, &[1, 2, 3, 4, 5, 1]);
    cases.same("mark, 1 is in a layer", priorities[5], 53);
    cases.same("mark, unmarked, then marked", bundles, vec![vec![1, 2], vec![3, 4]]);
}

/// A full buffer by hand: k 3, pages 1, 2 and 3, of which 2 is unmarked and has the highest priority. The
/// layers are {1}{2}{7}, all of t0 0.
fn full(a: u32) -> Desk {
    let mut desk = Desk::after(3, a, &[1, 2, 7]);
    desk.cache = vec![1, 2, 3];
    desk.marks = vec![1, 0, 1];
    desk.priorities = vec![5, 9, 7];
    desk.times.fill(0);
    desk
}

/// Which pages go, on that buffer.
fn who_goes(cases: &mut Cases) {
    let bundle = |desk: &Desk, page| {
        let mut desk = desk.clone();
        desk.ask(page).map(|answer| (answer, desk.evicted.clone(), desk.cached()))
    };
    // 7 is in the layers and not cached: no marks are cleared, and 2 goes first, then 1. 7 is revealed: t
    // stays 3.
    cases.same(
        "mark, a 1, lifted",
        bundle(&full(1), 7),
        Ok((2, vec![2], vec![(1, 1, 5), (3, 1, 7), (7, 1, 27)])),
    );
    cases.same("mark, a 2, lifted", bundle(&full(2), 7), Ok((2, vec![2, 1], vec![(3, 1, 7), (7, 1, 27)])));
    // 4 joins: marks are cleared first, so the priorities alone decide. t = t0 = 4: 32.
    cases.same(
        "mark, a 1, joined",
        bundle(&full(1), 4),
        Ok((2, vec![1], vec![(2, 0, 9), (3, 0, 7), (4, 1, 32)])),
    );
    cases.same("mark, a 2, joined", bundle(&full(2), 4), Ok((2, vec![1, 3], vec![(2, 0, 9), (4, 1, 32)])));
    // 3 joins too, and is cached: a hit that clears the other marks.
    cases.same("mark, a hit that joins", bundle(&full(2), 3).map(|served| served.0), Ok(0));
    let mut joined = full(2);
    joined.ask(3).expect("the request is sound");
    cases.same("mark, its marks", joined.cached(), vec![(1, 0, 5), (2, 0, 9), (3, 1, 32)]);
    // All marked, and all priorities equal: the lower pages.
    let mut equal = full(2);
    equal.marks = vec![1; 3];
    equal.priorities = vec![u64::MAX; 3];
    cases.same("mark, by page", bundle(&equal, 7), Ok((2, vec![1, 2], vec![(3, 1, u64::MAX), (7, 1, 27)])));
}

/// Equal priorities that requests lead to. k 10: page 20 first, then 11 to 18, so t = 9; then 20 again, which
/// is revealed: 9 * 9 - 1 = 80. Then one more page, from L0 at t = 10: 90 - 10 = 80. Page 30 joins and clears
/// the marks. 11 to 18 have 8 * 2 to 8 * 9 = 72 and go first; the ninth is the lower of the two pages with
/// 80.
fn equal(cases: &mut Cases) {
    for (other, ninth, tenth) in [(19, 19, 20), (21, 20, 21)] {
        let trace: Vec<u32> = [20].into_iter().chain(11..19).chain([20, other, 30]).collect();
        let first: Vec<u32> = (11..19).chain([ninth]).collect();
        cases.same(&format!("mark, 20 and {}", other), walk(10, 9, &trace).2, vec![first.clone()]);
        let all = [&first[..], &[tenth]].concat();
        cases.same(&format!("mark, 20 and {}, a 10", other), walk(10, 10, &trace).2, vec![all]);
    }
}

/// Beside LRU and oldest load. k 2, a 1: at the second requests of 1 and 2 both are revealed and t stays 2,
/// so they get 18 - 1 and 18 - 2. For 3, which joins, 2 goes, though it was asked for last and loaded last;
/// the others let 1 go.
fn beside_others(cases: &mut Cases) {
    let counts = |trace: &[u32]| {
        let marking = mark::run(mark::rdm, 2, 1, trace).map(|run| run.bundles.len());
        let recent = queue::run::<Lru>(2, 1, trace).map(|run| run.bundles.len());
        let oldest = queue::run::<Fifo>(2, 1, trace).map(|run| run.bundles.len());
        [marking, recent, oldest].map(|count| count.expect("k and a are sound"))
    };
    let (_, priorities, bundles) = walk(2, 1, &[1, 2, 1, 2, 3]);
    cases.same("mark, 1 2 1 2 3", (priorities, bundles), (vec![8, 16, 17, 16, 24], vec![vec![2]]));
    cases.same("mark, then 1", counts(&[1, 2, 1, 2, 3, 1]), [1, 2, 2]);
    cases.same("mark, then 2", counts(&[1, 2, 1, 2, 3, 2]), [2, 1, 1]);
}

/// What stands behind the count, past k and in the evicted list.
fn places(cases: &mut Cases) {
    let mut desk = Desk::after(3, 2, &[5]);
    desk.cache = vec![5, 9, 1, 9];
    desk.marks = vec![0, 9, 9, 9];
    desk.priorities = vec![4, 9, 9, 9];
    desk.evicted = vec![7; 3];
    let lists = |desk: &Desk| (desk.cache.clone(), desk.marks.clone(), desk.priorities.clone());
    // 5 is revealed: t stays 1, and it gets its mark and 9 - 1.
    let mut hit = desk.clone();
    cases.same("mark, a hit", hit.ask(5), Ok(0));
    cases.same("mark, a hit's lists", lists(&hit), (vec![5, 0, 0, 9], vec![1, 0, 0, 9], vec![8, 0, 0, 9]));
    cases.same("mark, a hit evicts nothing", hit.evicted, vec![7; 3]);
    // 3 goes before 5, with 9 * 2 - 2.
    let mut load = desk.clone();
    cases.same("mark, a load", load.ask(3), Ok(1));
    cases.same("mark, a load's lists", lists(&load), (vec![3, 5, 0, 9], vec![1, 0, 0, 9], vec![16, 4, 0, 9]));
    cases.same("mark, a load evicts nothing", load.evicted, vec![7; 3]);
    // With three pages counted that rise, 1 takes the place of 5 and 6: only the unmarked 8 is left.
    desk.cache = vec![5, 6, 8, 9];
    desk.marks = vec![0, 0, 0, 9];
    desk.priorities = vec![4, 4, 4, 9];
    desk.count = 3;
    cases.same("mark, a bundle", desk.ask(1), Ok(2));
    cases.same(
        "mark, a bundle's lists",
        lists(&desk),
        (vec![1, 8, 0, 9], vec![1, 0, 0, 9], vec![16, 4, 0, 9]),
    );
    cases.same("mark, the evicted list", desk.evicted, vec![5, 6, 7]);
}

/// A change to a sound desk, and the refusal that is due.
type Wrong = (&'static str, Refusal, fn(&mut Desk));

/// Changes to the desk after the shift, in the order in which refusals are judged.
const WRONG: [Wrong; 28] = [
    ("k 0", 1, |desk| desk.record.k = 0),
    ("k 257", 1, |desk| desk.record.k = 257),
    ("a 0", 2, |desk| desk.record.a = 0),
    ("a 4", 2, |desk| desk.record.a = 4),
    ("two places", 8, |desk| {
        desk.cache.truncate(2);
        desk.marks.truncate(2);
        desk.priorities.truncate(2);
    }),
    ("a place more", 8, |desk| desk.cache.push(0)),
    ("a mark more", 8, |desk| desk.marks.push(0)),
    ("a priority more", 8, |desk| desk.priorities.push(0)),
    ("no place for the bundle", 8, |desk| desk.evicted.truncate(1)),
    ("a page place less", 8, |desk| desk.pages.truncate(11)),
    ("a number place less", 8, |desk| desk.numbers.truncate(11)),
    ("a t0 place less", 8, |desk| desk.times.truncate(11)),
    ("count 4", 9, |desk| desk.count = 4),
    ("pages not rising", 9, |desk| desk.cache[1] = 0),
    ("a page twice", 9, |desk| desk.cache[1] = desk.cache[0]),
    ("a mark of 2", 9, |desk| desk.marks[1] = 2),
    ("more evictions than loads", 9, |desk| desk.record.evictions = 9),
    ("more loads than requests", 9, |desk| desk.record.loads = 9),
    ("t above requests", 9, |desk| desk.record.t = 9),
    ("t0 above t", 9, |desk| desk.times[0] = 9),
    ("t0 in an unused place", 9, |desk| desk.times[11] = 1),
    ("another k in the layers", 9, |desk| desk.record.layers.k = 4),
    ("another a in the layers", 9, |desk| desk.record.layers.a = 1),
    ("a request more", 9, |desk| desk.record.requests = 9),
    ("layers not in order", 9, |desk| desk.numbers.swap(0, 4)),
    ("a join too many", 9, |desk| desk.record.layers.joins = 3),
    ("the counter is full", 12, |desk| {
        desk.record.requests = u32::MAX;
        desk.record.layers.lifts += u32::MAX - desk.record.layers.requests;
        desk.record.layers.requests = u32::MAX;
    }),
    ("five places, of which none is left", 10, |desk| {
        desk.pages.truncate(5);
        desk.numbers.truncate(5);
        desk.times.truncate(5);
    }),
];

fn refusals(cases: &mut Cases) {
    let sound = Desk::after(3, 2, &[1, 2, 3, 4, 2, 5, 6, 1]);
    cases.same("mark, sound", sound.clone().ask(9), Ok(1));
    for (name, refusal, change) in WRONG {
        let mut wrong = sound.clone();
        change(&mut wrong);
        let before = wrong.clone();
        cases.same(&format!("mark, {}", name), wrong.ask(9), Err(refusal));
        cases.same(&format!("mark, {}, left alone", name), wrong, before);
    }
    // Two at once that do not undo each other: 12 before 10, 9 before 12, 8 before 9, 2 before 8, 1 before 2.
    for (first, second) in [(26, 27), (20, 26), (19, 27), (11, 19), (3, 8), (1, 3)] {
        let mut wrong = sound.clone();
        WRONG[first].2(&mut wrong);
        WRONG[second].2(&mut wrong);
        cases.same(&format!("mark, {} and {}", first, second), wrong.ask(9), Err(WRONG[first].1));
    }
    // Accepted: priorities of any size, t0 0 in a used place, anything behind the count, loads below the
    // count.
    let mut odd = sound;
    odd.priorities = vec![u64::MAX, 0, 5];
    (odd.cache[2], odd.marks[2]) = (0, 7);
    odd.times[..5].fill(0);
    (odd.record.loads, odd.record.evictions) = (0, 0);
    cases.same("mark, not judged", odd.ask(9), Ok(1));
}

/// A whole trace on a table.
fn whole(cases: &mut Cases) {
    let shift = [1, 2, 3, 4, 2, 5, 6, 1];
    let over = |places: [usize; 3], used: [u32; 3]| {
        let [mut pages, mut numbers, mut times] = places.map(|places| vec![0; places]);
        for (list, used) in [&mut pages, &mut numbers, &mut times].into_iter().zip(used) {
            *list.last_mut().expect("there are places") = used;
        }
        let run = mark::over_trace(3, 2, &shift, &mut pages, &mut numbers, &mut times);
        (run.map(|run| (run.bundles.len(), run.state.record.loads)), [pages, numbers, times])
    };
    let table = [vec![2, 4, 5, 6, 1, 0], vec![1, 1, 1, 2, 3, 0], vec![2, 4, 6, 7, 8, 0]];
    cases.same("mark, the shift whole", over([6; 3], [0; 3]), (Ok((3, 8)), table));
    cases.same("mark, five places", over([5; 3], [0; 3]).0, Ok((3, 8)));
    cases.same("mark, four places", over([4; 3], [0; 3]), (Err(10), [(); 3].map(|_| vec![0; 4])));
    for place in 0..3 {
        let mut places = [6; 3];
        places[place] = 7;
        let mut used = [0; 3];
        used[place] = 3;
        cases.same("mark, unequal lists", over(places, used).0, Err(8));
        let (refused, lists) = over([6; 3], used);
        cases.same("mark, a used place", refused, Err(9));
        cases.same("mark, a used place, left alone", lists.map(|list| list[5]), used);
        cases.same("mark, 9 before 10", over([2; 3], used).0, Err(9));
    }
}

/// examples/parked.trace without its repeats, which ask for revealed pages and change nothing. k 4, a 2:
///
///     page  layers after                t  priority  bundle    cached after it, unmarked ones in ()
///     1 10 11 1                         3  26                  1:26 10:16 11:24
///     12    {10}{11}{1}{12}             4  32
///     10 1  {11}{12}{10}{1}             4  34, 35              1:35 10:34 11:24 12:32
///     13    {11}{12,10,1}{13}           5  40        11 12     (1:35) (10:34) 13:40
///     1     {11,12,10}{13}{1}           6  53                  1:53 (10:34) 13:40
///     14    {11,12,10}{13}{1}{14}       7  56                  1:53 (10:34) 13:40 14:56
///     10    {13}{1}{14}{10}             8  70                  1:53 10:70 13:40 14:56
///     15    {13}{1,14,10}{15}           9  72        13 1      (10:70) (14:56) 15:72
///     1     {13,14,10}{15}{1}          10  89                  1:89 (10:70) (14:56) 15:72
///     11    {13,14,10}{15}{1}{11}      11  88        14 10     1:89 11:88 15:72
///     10    {15}{1}{11}{10}            12  106                 1:89 10:106 11:88 15:72
///     1     {15}{11}{10}{1}            12  107
///     12    {15}{11,10,1}{12}          13  104       15 11     (1:107) (10:106) 12:104
fn parked(cases: &mut Cases) {
    let (answers, priorities, bundles) =
        walk(4, 2, &[1, 10, 11, 1, 12, 10, 1, 13, 1, 14, 10, 15, 1, 11, 10, 1, 12]);
    let due = vec![8, 16, 24, 26, 32, 34, 35, 40, 53, 56, 70, 72, 89, 88, 106, 107, 104];
    cases.same("mark, parked", priorities, due);
    cases.same("mark, parked, bundles", bundles, vec![vec![11, 12], vec![13, 1], vec![14, 10], vec![15, 11]]);
    cases.same("mark, parked, loads", answers.iter().filter(|&&answer| answer > 0).count(), 11);
}

pub fn all(cases: &mut Cases) {
    the_shift(cases);
    times(cases);
    remembered(cases);
    who_goes(cases);
    equal(cases);
    beside_others(cases);
    places(cases);
    refusals(cases);
    whole(cases);
    parked(cases);
}
