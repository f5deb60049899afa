//! States of marking, with the request that they get.

use super::layers::{self, count_up};
use super::{all_lists, end_page};
use crate::calls::mark::Request;
use crate::calls::Lent;
use crate::model::mark::{rdm, run, Record};
use crate::rng::Rng;
use crate::traces::{any, any_sizes};
use std::collections::BTreeMap;

/// A request's input before it is lent. The layers' record and table stand in `layers`, with the page.
#[derive(Clone, Debug)]
pub struct Draft {
    /// Its part on the layers is not looked at.
    pub record: Record,
    pub layers: layers::Draft,
    /// t0 of the table's pages; 0 for those that are not here.
    pub t0: BTreeMap<u32, u32>,
    /// Places of the list of t0 that hold something else.
    pub other_t0: Vec<(usize, u32)>,
    /// Places that the list of t0 lacks, and how many it has over.
    pub t0_places: (usize, usize),
    pub count: u32,
    pub cache: Vec<u32>,
    pub marks: Vec<u32>,
    pub priorities: Vec<u64>,
    pub evicted: Vec<u32>,
}

impl Draft {
    /// The state after a trace, by the second implementation, with anything behind the count.
    pub fn after(k: u32, a: u32, trace: &[u32], spare: usize, rng: &mut Rng) -> Self {
        let state = run(rdm, k, a, trace).expect("k and a are sound").state;
        let places = k as usize + rng.below(3);
        let rows = state.cached.iter();
        let mut draft = Draft {
            layers: layers::Draft::after(k, a, trace, spare),
            t0: trace.iter().filter_map(|&page| Some((page, state.t0(page)?))).collect(),
            other_t0: Vec::new(),
            t0_places: (0, 0),
            count: state.cached.len() as u32,
            cache: rows.clone().map(|row| *row.0).collect(),
            marks: rows.clone().map(|row| u32::from(row.1.marked)).collect(),
            priorities: rows.map(|row| row.1.priority).collect(),
            evicted: vec![7; a as usize + rng.below(3)],
            record: state.record,
        };
        draft.cache.resize_with(places, || rng.word());
        draft.marks.resize_with(places, || rng.word());
        draft.priorities.resize_with(places, || rng.bits());
        draft
    }

    /// A state that some requests lead to, with pages at the ends of their range.
    pub fn reached(k: u32, a: u32, requests: usize, rng: &mut Rng) -> Self {
        let pages = k as usize + 1 + rng.below(4);
        let trace: Vec<u32> = (0..requests).map(|_| end_page(rng.below(pages))).collect();
        let spare = rng.below(3);
        let mut draft = Draft::after(k, a, &trace, spare, rng);
        draft.layers.page = end_page(rng.below(pages + 1));
        draft
    }

    /// The list of t0 that goes with the table.
    fn times(&self) -> Vec<u32> {
        let rows = self.layers.rows.iter();
        let t0 = |&(number, page): &(u32, u32)| match number {
            0 => 0,
            _ => self.t0.get(&page).copied().unwrap_or(0),
        };
        let mut times: Vec<u32> = rows.map(t0).collect();
        let places = times.len() + self.layers.spare + self.t0_places.1;
        times.resize(places.saturating_sub(self.t0_places.0), 0);
        for &(place, value) in &self.other_t0 {
            if let Some(time) = times.get_mut(place) {
                *time = value;
            }
        }
        times
    }

    pub fn request(&self) -> Request {
        let table = self.layers.state();
        Request {
            record: Record { layers: table.record, ..self.record.clone() },
            count: self.count,
            cache: Lent::new(&self.cache),
            marks: Lent::new(&self.marks),
            priorities: Lent::new(&self.priorities),
            evicted: Lent::new(&self.evicted),
            pages: table.pages,
            numbers: table.numbers,
            times: Lent::new(&self.times()),
            page: self.layers.page,
        }
    }

    /// Takes k, a and the request count of the layers over.
    pub fn as_layers(&mut self) {
        let layers = &self.layers.record;
        (self.record.k, self.record.a, self.record.requests) = (layers.k, layers.a, layers.requests);
    }
}

/// Replaces the cached pages by drawn ones, with drawn marks and priorities, of which some are equal.
fn recache(draft: &mut Draft, rng: &mut Rng) {
    let k = draft.record.k as usize;
    let range = 2 * k + 2;
    let count = if rng.once_in(2) { k } else { rng.below(k + 1) };
    let mut pages: Vec<u32> = (0..range as u32).collect();
    while pages.len() > count {
        pages.remove(rng.below(pages.len()));
    }
    let high = rng.pick(&[2, 5, 1_000]);
    draft.count = count as u32;
    for (place, page) in pages.into_iter().enumerate() {
        draft.cache[place] = page;
        draft.marks[place] = rng.below(2) as u32;
        draft.priorities[place] = rng.below(high) as u64;
    }
}

/// A sound state after a drawn trace, whose cached pages and t0 may be others, on a table with some places to
/// spare or none.
fn drawn_sound(k: u32, a: u32, rng: &mut Rng) -> Draft {
    let n = rng.between(0, 3 * k.min(12) as usize);
    let mut trace = any(k, a, n, rng);
    trace.iter_mut().for_each(|page| *page %= 16);
    let spare = if rng.once_in(3) { 0 } else { rng.below(5) };
    let mut draft = Draft::after(k, a, &trace, spare, rng);
    draft.layers.page = rng.below(18) as u32;
    if !rng.once_in(4) {
        recache(&mut draft, rng);
    }
    if rng.once_in(4) {
        let t = draft.record.t as usize;
        draft.t0.values_mut().for_each(|t0| *t0 = rng.below(t + 1) as u32);
    }
    if rng.once_in(8) {
        let requests = rng.pick(&[u32::MAX - 1, u32::MAX]);
        count_up(&mut draft.layers.record, requests, rng.pick(&layers::RULES));
        draft.as_layers();
        draft.record.t = rng.pick(&[draft.record.t, requests - 1, requests]);
    }
    draft
}

/// One change to a state, which may leave it sound.
fn disturb(draft: &mut Draft, rng: &mut Rng) {
    let noise = rng.word();
    let record = &mut draft.record;
    let value = rng.pick(&[0, 1, 2, record.requests, record.requests.wrapping_add(1), noise]);
    let place = rng.below(draft.cache.len() + 1);
    match rng.below(16) {
        0 => (record.k, record.a) = any_sizes(rng),
        1 => {
            layers::disturb(&mut draft.layers, rng);
            draft.as_layers();
        }
        2 => layers::disturb(&mut draft.layers, rng),
        3 => record.loads = value,
        4 => record.evictions = value,
        5 => record.t = value,
        6 => record.requests = value,
        7 => draft.count = rng.pick(&[0, record.k, record.k.wrapping_add(1), noise]),
        8 if place < draft.cache.len() => draft.cache[place] = rng.below(20) as u32,
        9 if place < draft.marks.len() => draft.marks[place] = rng.pick(&[0, 1, 2, noise]),
        10 => draft.other_t0.push((rng.below(draft.layers.rows.len() + 3), value)),
        11 => draft.t0_places = rng.pick(&[(0, 1), (1, 0), (1, 1)]),
        12 => drop(draft.evicted.pop()),
        13 => drop(draft.marks.pop()),
        14 => drop(draft.priorities.pop()),
        _ => drop(draft.cache.pop()),
    }
}

/// A drawn state, sound or not.
pub fn drawn(rng: &mut Rng) -> Draft {
    let k = if rng.once_in(10) { rng.pick(&[16, 255, 256]) } else { rng.between(1, 8) };
    let a = if rng.once_in(4) { k } else { rng.between(1, k) };
    let mut draft = drawn_sound(k as u32, a as u32, rng);
    for _ in 0..rng.pick(&[0, 0, 0, 1, 1, 2]) {
        disturb(&mut draft, rng);
    }
    draft
}

/// All caches of k 2 with pages 0 to 2, marks 0 to 2 and priorities 0 or 1, in lists of up to three places,
/// on tables at which rules 1a, 1b, 1b for a = k and 1c apply, given to a function. Many of them are not well
/// formed.
pub fn all_small(rng: &mut Rng, mut give: impl FnMut(&Draft)) {
    for (a, trace) in [(1, &[1][..]), (1, &[1, 2]), (2, &[1, 2]), (1, &[1, 2, 3])] {
        let start = Draft::after(2, a, trace, 1, rng);
        for places in 1..=3 {
            for cache in all_lists(3, places) {
                for marks in all_lists(3, places.min(2)) {
                    let mut draft = Draft { cache: cache.clone(), marks, ..start.clone() };
                    draft.marks.resize(places, 2);
                    small_requests(&mut draft, places, &mut give);
                }
            }
        }
    }
}

fn small_requests(draft: &mut Draft, places: usize, give: &mut impl FnMut(&Draft)) {
    for priorities in 0..4 {
        draft.priorities = (0..places as u64).map(|place| priorities >> place & 1).collect();
        for count in 0..=3 {
            for page in 0..=3 {
                draft.count = count;
                draft.layers.page = page;
                give(draft);
            }
        }
    }
}

/// A wide table of so many used places, in every second of which a page stands twice; t0 is drawn.
pub fn wide(used: usize, rng: &mut Rng) -> Draft {
    let table = layers::wide(used, rng);
    let (k, a) = (table.record.k, table.record.a);
    let mut draft = Draft::after(k, a, &[], 0, rng);
    let pages: Vec<u32> = table.rows.iter().map(|row| row.1).collect();
    draft.layers = table;
    draft.as_layers();
    let t = draft.record.requests - rng.below(3) as u32;
    draft.record.t = t;
    draft.t0 = pages.iter().map(|&page| (page, rng.below(t as usize + 1) as u32)).collect();
    let mut held: Vec<u32> = (0..k).map(|_| rng.pick(&pages)).collect();
    held.sort_unstable();
    held.dedup();
    draft.count = held.len() as u32;
    for (place, page) in held.into_iter().enumerate() {
        draft.cache[place] = page;
        draft.marks[place] = rng.below(2) as u32;
    }
    draft
}
