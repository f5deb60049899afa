//! The layers, one request at a time, their questions, and a whole trace.

use super::{check_sizes, check_trace, Refusal};
use std::collections::BTreeSet;

/// The rule that a request was served by, with the number that is answered.
#[derive(Clone, Copy, Debug, PartialEq, Eq)]
pub enum Rule {
    /// Rule 1a.
    Append = 1,
    /// Rule 1b.
    Join = 2,
    /// Rule 1c.
    Lift = 3,
}

/// The layers' run record.
#[derive(Clone, Debug, PartialEq, Eq)]
pub struct Record {
    pub k: u32,
    pub a: u32,
    pub requests: u32,
    pub evictions: u32,
    pub s: u32,
    pub appends: u32,
    pub joins: u32,
    pub lifts: u32,
}

impl Record {
    /// The record before the first request.
    pub fn empty(k: u32, a: u32) -> Self {
        Record { k, a, requests: 0, evictions: 0, s: 0, appends: 0, joins: 0, lifts: 0 }
    }

    /// The count of a rule.
    pub fn count_of(&mut self, rule: Rule) -> &mut u32 {
        match rule {
            Rule::Append => &mut self.appends,
            Rule::Join => &mut self.joins,
            Rule::Lift => &mut self.lifts,
        }
    }
}

/// L1 to Ls, the first at place 0.
pub type Layers = Vec<BTreeSet<u32>>;

/// The answer to the question on a set.
#[derive(Clone, Copy, Debug, PartialEq, Eq)]
pub enum Possible {
    Yes,
    CountDiffers,
    BreaksAt(u32),
}

/// Puts two layers together, the smaller into the larger.
fn join(mut one: BTreeSet<u32>, mut other: BTreeSet<u32>) -> BTreeSet<u32> {
    if one.len() < other.len() {
        std::mem::swap(&mut one, &mut other);
    }
    one.extend(other);
    one
}

/// Rules 1a, 1b and 1c; tells which one applied.
pub fn serve(k: u32, a: u32, layers: &mut Layers, page: u32) -> Rule {
    let (k, a) = (k as usize, a as usize);
    let full = layers.len() == k;
    let rule = match layers.iter().position(|layer| layer.contains(&page)) {
        None if full => {
            let joined = layers.drain(k - a..).fold(BTreeSet::new(), join);
            if let Some(below) = layers.pop() {
                layers.push(join(below, joined));
            }
            Rule::Join
        }
        None => Rule::Append,
        Some(i) => {
            let mut rest = layers.remove(i);
            rest.remove(&page);
            if i > 0 {
                let below = std::mem::take(&mut layers[i - 1]);
                layers[i - 1] = join(below, rest);
            }
            Rule::Lift
        }
    };
    layers.push(BTreeSet::from([page]));
    rule
}

/// Serves a page and counts the request; 1b counts a bundle too.
pub(super) fn serve_counted(record: &mut Record, layers: &mut Layers, page: u32) -> Rule {
    let rule = serve(record.k, record.a, layers, page);
    record.requests += 1;
    record.evictions += u32::from(rule == Rule::Join);
    record.s = layers.len() as u32;
    *record.count_of(rule) += 1;
    rule
}

/// The layers of a table; 9 if it is not well formed.
fn read_table(record: &Record, pages: &[u32], numbers: &[u32]) -> Result<Layers, Refusal> {
    let used = numbers.iter().position(|&n| n == 0).unwrap_or(numbers.len());
    let rest_unused = pages[used..].iter().chain(&numbers[used..]).all(|&x| x == 0);
    let rows: Vec<(u32, u32)> = numbers[..used].iter().copied().zip(pages[..used].iter().copied()).collect();
    let ordered = rows.windows(2).all(|pair| pair[0] < pair[1]);
    if !rest_unused || !ordered || record.s > record.k {
        return Err(9);
    }
    let mut layers: Layers = vec![BTreeSet::new(); record.s as usize];
    for &(number, page) in &rows {
        if number > record.s {
            return Err(9);
        }
        layers[number as usize - 1].insert(page);
    }
    let different: BTreeSet<u32> = rows.iter().map(|row| row.1).collect();
    if different.len() < rows.len() || !sizes_fit(record, &layers) {
        return Err(9);
    }
    Ok(layers)
}

/// No layer is empty; every layer above k-a is single, and all are if s is at most k-a.
fn sizes_fit(record: &Record, layers: &Layers) -> bool {
    let join_at = record.k - record.a;
    layers.iter().enumerate().all(|(i, layer)| {
        let single_due = i as u32 + 1 > join_at || record.s <= join_at;
        layer.len() == 1 || (!layer.is_empty() && !single_due)
    })
}

/// The three counts add up to the requests, not only modulo 2^32, and the second equals the evictions.
fn counts_fit(record: &Record) -> bool {
    let sum = u64::from(record.appends) + u64::from(record.joins) + u64::from(record.lifts);
    sum == u64::from(record.requests) && record.joins == record.evictions
}

/// The refusals that requests and questions share, in order: 1, 2, 8, 9.
pub(super) fn check(record: &Record, pages: &[u32], numbers: &[u32]) -> Result<Layers, Refusal> {
    check_sizes(record.k, record.a)?;
    if pages.len() != numbers.len() {
        return Err(8);
    }
    if record.evictions > record.requests || !counts_fit(record) {
        return Err(9);
    }
    read_table(record, pages, numbers)
}

/// Writes layers into a table that has a place for each page.
pub fn write_table(layers: &Layers, pages: &mut [u32], numbers: &mut [u32]) {
    pages.fill(0);
    numbers.fill(0);
    let rows = (1..).zip(layers).flat_map(|(number, layer)| layer.iter().map(move |&page| (number, page)));
    for (place, (number, page)) in rows.enumerate() {
        pages[place] = page;
        numbers[place] = number;
    }
}

/// One request on a lent table: the record after it, and the rule. After the shared refusals come 12 and 10.
pub fn request(
    record: &Record,
    pages: &mut [u32],
    numbers: &mut [u32],
    page: u32,
) -> Result<(Record, Rule), Refusal> {
    let mut layers = check(record, pages, numbers)?;
    if record.requests == u32::MAX {
        return Err(12);
    }
    let mut next = record.clone();
    let rule = serve_counted(&mut next, &mut layers, page);
    let held: usize = layers.iter().map(BTreeSet::len).sum();
    if held > pages.len() {
        return Err(10);
    }
    write_table(&layers, pages, numbers);
    Ok((next, rule))
}

/// The longest run of single-page layers at the top end.
pub fn revealed_of(layers: &Layers) -> u32 {
    layers.iter().rev().take_while(|layer| layer.len() == 1).count() as u32
}

/// How many pages are revealed.
pub fn revealed(record: &Record, pages: &[u32], numbers: &[u32]) -> Result<u32, Refusal> {
    Ok(revealed_of(&check(record, pages, numbers)?))
}

/// The number of the layer that a page is in, 0 for L0.
pub fn number_of(layers: &Layers, page: u32) -> usize {
    (1..).zip(layers).find(|(_, layer)| layer.contains(&page)).map_or(0, |(number, _)| number)
}

/// Each i from 0 to s at which a set has more than i pages from L0 to Li, rising.
fn broken_at(layers: &Layers, set: &BTreeSet<u32>) -> Vec<usize> {
    let numbers: Vec<usize> = set.iter().map(|&page| number_of(layers, page)).collect();
    let from_below = |i| numbers.iter().filter(|&&number| number <= i).count();
    (0..=layers.len()).filter(|&i| from_below(i) > i).collect()
}

/// Document 01's possible set; a "no" names the smallest layer at which the rule breaks, as Req 06 says.
pub fn possible_of(layers: &Layers, set: &BTreeSet<u32>) -> Possible {
    if set.len() != layers.len() {
        return Possible::CountDiffers;
    }
    match broken_at(layers, set).first() {
        Some(&i) => Possible::BreaksAt(i as u32),
        None => Possible::Yes,
    }
}

/// The question on a set in a list of its own: after the shared refusals comes 11.
pub fn possible(record: &Record, pages: &[u32], numbers: &[u32], set: &[u32]) -> Result<Possible, Refusal> {
    let layers = check(record, pages, numbers)?;
    let different: BTreeSet<u32> = set.iter().copied().collect();
    if different.len() < set.len() {
        return Err(11);
    }
    Ok(possible_of(&layers, &different))
}

/// At how many layers a set breaks the rule.
pub fn times_broken(record: &Record, pages: &[u32], numbers: &[u32], set: &[u32]) -> Result<usize, Refusal> {
    let layers = check(record, pages, numbers)?;
    Ok(broken_at(&layers, &set.iter().copied().collect()).len())
}

/// What a whole trace does, from the empty record and no layers; its bundles are the record's evictions.
#[derive(Clone, Debug, PartialEq, Eq)]
pub struct Run {
    pub record: Record,
    pub layers: Layers,
}

/// A whole trace with room for every page.
pub fn run(k: u32, a: u32, trace: &[u32]) -> Result<Run, Refusal> {
    check_sizes(k, a)?;
    let mut run = Run { record: Record::empty(k, a), layers: Vec::new() };
    for &page in trace {
        serve_counted(&mut run.record, &mut run.layers, page);
    }
    Ok(run)
}

/// A whole trace on a lent table that is all unused: 1, 2, 3, 8 for unequal lists, 9 where a place is
/// used, 10 where the layers after some request hold more pages than there are places. A refusal leaves
/// the table as it was lent.
pub fn over_trace(
    k: u32,
    a: u32,
    trace: &[u32],
    pages: &mut [u32],
    numbers: &mut [u32],
) -> Result<Run, Refusal> {
    check_trace(k, a, trace)?;
    if pages.len() != numbers.len() {
        return Err(8);
    }
    if pages.iter().chain(numbers.iter()).any(|&held| held != 0) {
        return Err(9);
    }
    let mut run = Run { record: Record::empty(k, a), layers: Vec::new() };
    for &page in trace {
        serve_counted(&mut run.record, &mut run.layers, page);
        if run.layers.iter().map(BTreeSet::len).sum::<usize>() > pages.len() {
            return Err(10);
        }
    }
    write_table(&run.layers, pages, numbers);
    Ok(run)
}
