//! Marking with revealed pages, from Req 09 and source document 001: the policy OPTMark, with the priorities
//! RDM or with any other rule. Each cached page has its mark and its priority in a map, and the layers are
//! those of `layers`, of which the policy asks where the requested page is.

use super::layers::{self, Layers};
use super::{check_sizes, check_trace, Bundle, Refusal};
use std::collections::{BTreeMap, BTreeSet};

/// The run record: the policy's own sizes and counts, t, and the layers' record inside.
#[derive(Clone, Debug, PartialEq, Eq)]
pub struct Record {
    pub k: u32,
    pub a: u32,
    pub requests: u32,
    pub loads: u32,
    pub evictions: u32,
    pub t: u32,
    pub layers: layers::Record,
}

impl Record {
    /// The record before the first request.
    pub fn empty(k: u32, a: u32) -> Self {
        Record { k, a, requests: 0, loads: 0, evictions: 0, t: 0, layers: layers::Record::empty(k, a) }
    }
}

/// The seven lists that a request is lent.
pub struct Lists<'a> {
    pub cache: &'a mut [u32],
    pub marks: &'a mut [u32],
    pub priorities: &'a mut [u64],
    pub evicted: &'a mut [u32],
    pub pages: &'a mut [u32],
    pub numbers: &'a mut [u32],
    pub times: &'a mut [u32],
}

/// What an accepted request answers.
#[derive(Clone, Debug, PartialEq, Eq)]
pub struct Served {
    pub record: Record,
    pub count: u32,
    /// 0 for a hit, 1 for a load, 2 for a load after a bundle.
    pub answer: u32,
}

/// A rule of priorities: from t, the page's t0 and the page.
pub type Priorities = fn(u32, u32, u32) -> u64;

/// RDM, times ten: 8t + (t - t0).
pub fn rdm(t: u32, t0: u32, _page: u32) -> u64 {
    9 * u64::from(t) - u64::from(t0)
}

/// What is kept beside a cached page. Of two pages the one with the lesser of these goes first.
#[derive(Clone, Copy, Debug, PartialEq, Eq, PartialOrd, Ord)]
pub struct Cached {
    pub marked: bool,
    pub priority: u64,
}

/// The policy between two requests.
#[derive(Clone, Debug)]
pub struct State {
    pub record: Record,
    pub cached: BTreeMap<u32, Cached>,
    pub layers: Layers,
    /// t at the last request from L0 of each page. For a page that falls back to L0 it means nothing any
    /// more: its next request is from L0 and puts another in its place before it is looked at.
    from_below: BTreeMap<u32, u32>,
}

impl State {
    pub fn empty(k: u32, a: u32) -> Self {
        let record = Record::empty(k, a);
        State { record, cached: BTreeMap::new(), layers: Vec::new(), from_below: BTreeMap::new() }
    }

    /// t0 of a page, while a layer above L0 has it.
    pub fn t0(&self, page: u32) -> Option<u32> {
        match layers::number_of(&self.layers, page) {
            0 => None,
            _ => self.from_below.get(&page).copied(),
        }
    }

    /// Moves t on and gives the requested page its t0, both as its layer before the request has it; tells its
    /// priority.
    fn priority(&mut self, rule: Priorities, page: u32, number: usize) -> u64 {
        let not_revealed = self.layers.len() - layers::revealed_of(&self.layers) as usize;
        if number <= not_revealed {
            self.record.t += 1;
        }
        if number == 0 {
            self.from_below.insert(page, self.record.t);
        }
        rule(self.record.t, self.from_below[&page], page)
    }

    /// Takes out the a pages that go first: unmarked before marked, each by priority, then by page.
    fn evict(&mut self) -> Vec<u32> {
        let mut rows: Vec<(Cached, u32)> =
            self.cached.iter().map(|(&page, &beside)| (beside, page)).collect();
        rows.sort_unstable();
        let bundle: Vec<u32> = rows.iter().take(self.record.a as usize).map(|row| row.1).collect();
        for gone in &bundle {
            self.cached.remove(gone);
        }
        bundle
    }

    /// Serves a page. A load gives its bundle, which is empty if there was room.
    pub fn serve(&mut self, rule: Priorities, page: u32) -> Option<Vec<u32>> {
        let k = self.record.k as usize;
        let number = layers::number_of(&self.layers, page);
        let priority = self.priority(rule, page, number);
        if number == 0 && self.layers.len() == k {
            self.cached.values_mut().for_each(|beside| beside.marked = false);
        }
        let absent = !self.cached.contains_key(&page);
        let bundle = if absent && self.cached.len() == k { self.evict() } else { Vec::new() };
        self.cached.insert(page, Cached { marked: true, priority });
        layers::serve_counted(&mut self.record.layers, &mut self.layers, page);
        self.record.requests += 1;
        self.record.loads += u32::from(absent);
        self.record.evictions += u32::from(!bundle.is_empty());
        absent.then_some(bundle)
    }

    /// The number of pages that the layers have.
    fn places(&self) -> usize {
        self.layers.iter().map(BTreeSet::len).sum()
    }

    /// Writes the layers and t0 into a table with a place for each page.
    fn write_table(&self, pages: &mut [u32], numbers: &mut [u32], times: &mut [u32]) {
        layers::write_table(&self.layers, pages, numbers);
        for (place, time) in times.iter_mut().enumerate() {
            *time = if numbers[place] > 0 { self.from_below[&pages[place]] } else { 0 };
        }
    }

    /// Writes the cached pages, with what stands beside them, to the first k places; zeros behind them.
    fn write_cache(&self, lists: &mut Lists) {
        let mut rows = self.cached.iter();
        for place in 0..self.record.k as usize {
            let (page, mark, priority) = match rows.next() {
                Some((&page, beside)) => (page, u32::from(beside.marked), beside.priority),
                None => (0, 0, 0),
            };
            lists.cache[place] = page;
            lists.marks[place] = mark;
            lists.priorities[place] = priority;
        }
    }
}

/// Whether the lists have places enough, and those that go together as many.
fn places_fit(record: &Record, lists: &Lists) -> bool {
    let places = lists.cache.len();
    places >= record.k as usize
        && [lists.marks.len(), lists.priorities.len()] == [places; 2]
        && lists.evicted.len() >= record.a as usize
        && [lists.numbers.len(), lists.times.len()] == [lists.pages.len(); 2]
}

/// Whether the policy's own counts and cached pages are well formed and the layers' record is of the same
/// run.
fn well_formed(record: &Record, count: u32, lists: &Lists) -> bool {
    let held = count.min(record.k) as usize;
    let Record { k, a, requests, layers, .. } = record;
    count <= *k
        && lists.cache[..held].windows(2).all(|pair| pair[0] < pair[1])
        && lists.marks[..held].iter().all(|&mark| mark < 2)
        && record.evictions <= record.loads
        && record.loads <= *requests
        && record.t <= *requests
        && (layers.k, layers.a, layers.requests) == (*k, *a, *requests)
        && times_fit(record, lists)
}

/// Whether each t0 is at most t, and 0 in an unused place.
fn times_fit(record: &Record, lists: &Lists) -> bool {
    let mut rows = lists.times.iter().zip(lists.numbers.iter());
    rows.all(|(&t0, &number)| t0 <= record.t && (number > 0 || t0 == 0))
}

/// The state that a record and its lists stand for; 1, 2, 8, 9.
fn read(record: &Record, count: u32, lists: &Lists) -> Result<State, Refusal> {
    check_sizes(record.k, record.a)?;
    if !places_fit(record, lists) {
        return Err(8);
    }
    if !well_formed(record, count, lists) {
        return Err(9);
    }
    let layers = layers::check(&record.layers, lists.pages, lists.numbers)?;
    let row = |place: usize| {
        let beside = Cached { marked: lists.marks[place] == 1, priority: lists.priorities[place] };
        (lists.cache[place], beside)
    };
    let used = lists.numbers.iter().filter(|&&number| number > 0).count();
    let times = lists.pages[..used].iter().copied().zip(lists.times.iter().copied());
    Ok(State {
        record: record.clone(),
        cached: (0..count as usize).map(row).collect(),
        layers,
        from_below: times.collect(),
    })
}

/// One request on lent lists: 1, 2, 8, 9, then 12, then 10 where the layers after it have more pages than the
/// table has places.
pub fn request(record: &Record, count: u32, lists: &mut Lists, page: u32) -> Result<Served, Refusal> {
    let mut state = read(record, count, lists)?;
    if record.requests == u32::MAX {
        return Err(12);
    }
    let bundle = state.serve(rdm, page);
    if state.places() > lists.pages.len() {
        return Err(10);
    }
    state.write_table(lists.pages, lists.numbers, lists.times);
    state.write_cache(lists);
    let answer = match &bundle {
        None => 0,
        Some(bundle) if bundle.is_empty() => 1,
        Some(bundle) => {
            lists.evicted[..bundle.len()].copy_from_slice(bundle);
            2
        }
    };
    Ok(Served { count: state.cached.len() as u32, answer, record: state.record })
}

/// What a whole trace does, from an empty buffer and empty layers.
#[derive(Clone, Debug)]
pub struct Run {
    pub bundles: Vec<Bundle>,
    pub state: State,
}

/// A whole trace with a rule of priorities, and room for so many pages in the layers: 10 where they are not
/// enough.
fn run_within(rule: Priorities, k: u32, a: u32, trace: &[u32], places: usize) -> Result<Run, Refusal> {
    let mut run = Run { bundles: Vec::new(), state: State::empty(k, a) };
    for (t, &page) in trace.iter().enumerate() {
        match run.state.serve(rule, page) {
            Some(bundle) if !bundle.is_empty() => run.bundles.push((t as u32, bundle)),
            _ => {}
        }
        if run.state.places() > places {
            return Err(10);
        }
    }
    Ok(run)
}

/// A whole trace with a rule of priorities, and room for every page.
pub fn run(rule: Priorities, k: u32, a: u32, trace: &[u32]) -> Result<Run, Refusal> {
    check_trace(k, a, trace)?;
    run_within(rule, k, a, trace, trace.len())
}

/// A whole trace with RDM on a lent table that is all unused: 1, 2, 3, 8 for unequal lists, 9 where a place
/// is used, 10. A refusal leaves the table as it was lent.
pub fn over_trace(
    k: u32,
    a: u32,
    trace: &[u32],
    pages: &mut [u32],
    numbers: &mut [u32],
    times: &mut [u32],
) -> Result<Run, Refusal> {
    check_trace(k, a, trace)?;
    if [numbers.len(), times.len()] != [pages.len(); 2] {
        return Err(8);
    }
    if pages.iter().chain(numbers.iter()).chain(times.iter()).any(|&held| held != 0) {
        return Err(9);
    }
    let run = run_within(rdm, k, a, trace, pages.len())?;
    run.state.write_table(pages, numbers, times);
    Ok(run)
}
