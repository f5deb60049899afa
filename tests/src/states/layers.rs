//! States of the layers.

use super::{all_lists, end_page, Fault};
use crate::calls::layers::State;
use crate::calls::Lent;
use crate::model::layers::{self, Layers, Record, Rule};
use crate::rng::Rng;
use crate::traces::{any, any_sizes, scattered};
use std::collections::BTreeSet;

/// A state before it is lent: the table by its rows, number and page, with unused places behind them.
#[derive(Clone, Debug)]
pub struct Draft {
    pub record: Record,
    pub rows: Vec<(u32, u32)>,
    pub spare: usize,
    /// Places that the list of pages and the list of numbers lack.
    pub short: [usize; 2],
    /// The page of a request.
    pub page: u32,
}

impl Draft {
    pub fn state(&self) -> State {
        let places = self.rows.len() + self.spare;
        let (mut numbers, mut pages): (Vec<u32>, Vec<u32>) = self.rows.iter().copied().unzip();
        pages.resize(places, 0);
        numbers.resize(places, 0);
        pages.truncate(places.saturating_sub(self.short[0]));
        numbers.truncate(places.saturating_sub(self.short[1]));
        State { record: self.record.clone(), pages: Lent::new(&pages), numbers: Lent::new(&numbers) }
    }

    /// The state after a trace, by the second implementation.
    pub fn after(k: u32, a: u32, trace: &[u32], spare: usize) -> Self {
        let run = layers::run(k, a, trace).expect("k and a are sound");
        let rows = (1..).zip(&run.layers).flat_map(|(n, layer)| layer.iter().map(move |&page| (n, page)));
        Draft { record: run.record, rows: rows.collect(), spare, short: [0, 0], page: 0 }
    }

    /// A state that some requests lead to, with pages at the ends of their range.
    pub fn reached(k: u32, a: u32, requests: usize, rng: &mut Rng) -> Self {
        let pages = k as usize + 1 + rng.below(k as usize + 4);
        let trace: Vec<u32> = (0..requests).map(|_| end_page(rng.below(pages))).collect();
        let mut draft = Draft::after(k, a, &trace, rng.below(3));
        draft.page = end_page(rng.below(pages + 1));
        draft
    }

    /// The last layer that may have several pages; 0 where every layer must be single.
    fn last_wide(&self) -> u32 {
        let join_at = self.record.k.saturating_sub(self.record.a);
        if self.record.s > join_at {
            join_at
        } else {
            0
        }
    }

    /// A page that the table does not have.
    fn fresh(&self) -> u32 {
        (50_000..).find(|page| self.rows.iter().all(|row| row.1 != *page)).unwrap_or(0)
    }

    /// Puts a row where it belongs.
    fn insert(&mut self, number: u32, page: u32) -> bool {
        let place = self.rows.iter().position(|row| row.0 == 0 || *row >= (number, page));
        self.rows.insert(place.unwrap_or(self.rows.len()), (number, page));
        true
    }
}

/// Every condition of the state and of a request, broken alone.
pub const FAULTS: [Fault<Draft>; 35] = [
    Fault { name: "k is 0", refusal: 1, apply: |draft| set(&mut draft.record.k, 0) },
    Fault { name: "k is 257", refusal: 1, apply: |draft| set(&mut draft.record.k, 257) },
    Fault { name: "a is 0", refusal: 2, apply: |draft| set(&mut draft.record.a, 0) },
    Fault {
        name: "a is k + 1",
        refusal: 2,
        apply: |draft| set(&mut draft.record.a, draft.record.k.wrapping_add(1)),
    },
    Fault { name: "a page place less", refusal: 8, apply: |draft| shorten(draft, 0) },
    Fault { name: "a number place less", refusal: 8, apply: |draft| shorten(draft, 1) },
    Fault { name: "evictions above requests", refusal: 9, apply: too_many_evictions },
    Fault { name: "no counts", refusal: 9, apply: no_counts },
    Fault { name: "an append too many", refusal: 9, apply: |draft| raise(&mut draft.record.appends) },
    Fault { name: "an append too few", refusal: 9, apply: |draft| lower(&mut draft.record.appends) },
    Fault { name: "a lift too many", refusal: 9, apply: |draft| raise(&mut draft.record.lifts) },
    Fault { name: "a lift too few", refusal: 9, apply: |draft| lower(&mut draft.record.lifts) },
    Fault { name: "a join and an eviction too many", refusal: 9, apply: join_too_many },
    Fault {
        name: "a join and an eviction too few",
        refusal: 9,
        apply: |draft| lower(&mut draft.record.joins) && lower(&mut draft.record.evictions),
    },
    Fault {
        name: "a join counted as a lift",
        refusal: 9,
        apply: |draft| lower(&mut draft.record.joins) && raise(&mut draft.record.lifts),
    },
    Fault {
        name: "an append counted as a join",
        refusal: 9,
        apply: |draft| lower(&mut draft.record.appends) && raise(&mut draft.record.joins),
    },
    Fault {
        name: "appends is 2^31, the sum 2^32 too large",
        refusal: 9,
        apply: |draft| split(&mut draft.record, 1 << 31),
    },
    Fault {
        name: "appends is the largest number, the sum 2^32 too large",
        refusal: 9,
        apply: |draft| split(&mut draft.record, u32::MAX),
    },
    Fault { name: "lifts is the largest number, the sum 2^32 too large", refusal: 9, apply: most_lifts },
    Fault { name: "a page in two layers", refusal: 9, apply: page_in_two_layers },
    Fault { name: "a page twice in a layer", refusal: 9, apply: page_twice_in_layer },
    Fault { name: "layers not in order", refusal: 9, apply: |draft| swap(draft, |x, y| x.0 != y.0) },
    Fault { name: "pages not in order", refusal: 9, apply: |draft| swap(draft, |x, y| x.0 == y.0) },
    Fault { name: "a used place behind an unused one", refusal: 9, apply: hole },
    Fault { name: "an unused place with a page", refusal: 9, apply: page_without_number },
    Fault { name: "a layer is missing", refusal: 9, apply: layer_missing },
    Fault { name: "a layer above s", refusal: 9, apply: layer_above_s },
    Fault { name: "s is k + 1", refusal: 9, apply: s_above_k },
    Fault { name: "s is the largest number", refusal: 9, apply: |draft| set(&mut draft.record.s, u32::MAX) },
    Fault { name: "two pages in a layer above k - a", refusal: 9, apply: top_not_single },
    Fault { name: "two pages in a layer, s at most k - a", refusal: 9, apply: low_not_single },
    Fault {
        name: "the request counter is full, with appends",
        refusal: 12,
        apply: |draft| count_up(&mut draft.record, u32::MAX, Rule::Append),
    },
    Fault {
        name: "the request counter is full, with joins",
        refusal: 12,
        apply: |draft| count_up(&mut draft.record, u32::MAX, Rule::Join),
    },
    Fault {
        name: "the request counter is full, with lifts",
        refusal: 12,
        apply: |draft| count_up(&mut draft.record, u32::MAX, Rule::Lift),
    },
    Fault { name: "no place for the page", refusal: 10, apply: no_place },
];

fn set(field: &mut u32, value: u32) -> bool {
    *field = value;
    true
}

/// One more; false at the end of the range.
fn raise(field: &mut u32) -> bool {
    *field = field.wrapping_add(1);
    *field > 0
}

/// One less; false at 0.
fn lower(field: &mut u32) -> bool {
    *field = field.wrapping_sub(1);
    *field < u32::MAX
}

/// Raises requests to a number; those that are added are all counted for one rule.
pub fn count_up(record: &mut Record, requests: u32, rule: Rule) -> bool {
    let more = requests.wrapping_sub(record.requests);
    let count = record.count_of(rule);
    *count = count.wrapping_add(more);
    if rule == Rule::Join {
        record.evictions = record.evictions.wrapping_add(more);
    }
    set(&mut record.requests, requests)
}

/// The requests that are no joins, modulo 2^32.
fn no_joins(record: &Record) -> u32 {
    record.requests.wrapping_sub(record.joins)
}

/// Sets appends, and lifts so that the counts add up modulo 2^32; true if as numbers they do not.
fn split(record: &mut Record, appends: u32) -> bool {
    let others = no_joins(record);
    record.appends = appends;
    record.lifts = others.wrapping_sub(appends);
    appends > others
}

fn shorten(draft: &mut Draft, list: usize) -> bool {
    draft.short[list] += 1;
    draft.rows.len() + draft.spare > 0
}

/// Joins are as many as evictions, and the counts add up modulo 2^32.
fn too_many_evictions(draft: &mut Draft) -> bool {
    draft.record.evictions = draft.record.requests.wrapping_add(1);
    draft.record.joins = draft.record.evictions;
    split(&mut draft.record, 0);
    draft.record.requests < u32::MAX
}

/// A record as it was before it had counts.
fn no_counts(draft: &mut Draft) -> bool {
    (draft.record.appends, draft.record.joins, draft.record.lifts) = (0, 0, 0);
    draft.record.requests > 0
}

fn join_too_many(draft: &mut Draft) -> bool {
    let record = &mut draft.record;
    raise(&mut record.joins) && raise(&mut record.evictions) && record.evictions <= record.requests
}

fn most_lifts(draft: &mut Draft) -> bool {
    let appends = no_joins(&draft.record).wrapping_add(1);
    split(&mut draft.record, appends)
}

fn page_in_two_layers(draft: &mut Draft) -> bool {
    let wide = draft.last_wide();
    match draft.rows.iter().rev().find(|row| row.0 > 1).copied() {
        Some((_, page)) if wide > 0 => draft.insert(1, page),
        _ => false,
    }
}

fn page_twice_in_layer(draft: &mut Draft) -> bool {
    let wide = draft.last_wide();
    match draft.rows.first().copied() {
        Some((number, page)) if wide > 0 => draft.insert(number, page),
        _ => false,
    }
}

/// Exchanges the last two neighbours that are alike in this way.
fn swap(draft: &mut Draft, alike: fn((u32, u32), (u32, u32)) -> bool) -> bool {
    let rows = &mut draft.rows;
    match (1..rows.len()).rev().find(|&place| alike(rows[place - 1], rows[place])) {
        Some(place) => rows.swap(place - 1, place),
        None => return false,
    }
    true
}

fn hole(draft: &mut Draft) -> bool {
    if draft.rows.is_empty() {
        return false;
    }
    draft.rows.insert(draft.rows.len() - 1, (0, 0));
    true
}

fn page_without_number(draft: &mut Draft) -> bool {
    draft.rows.push((0, draft.fresh()));
    true
}

/// The last layer's number becomes one more, and s with it.
fn layer_missing(draft: &mut Draft) -> bool {
    let (s, k) = (draft.record.s, draft.record.k);
    match draft.rows.last_mut() {
        Some(row) if s < k => row.0 = s + 1,
        _ => return false,
    }
    draft.record.s = s + 1;
    true
}

fn layer_above_s(draft: &mut Draft) -> bool {
    if draft.record.s == 0 {
        return false;
    }
    draft.record.s -= 1;
    let single = draft.rows.windows(2).all(|pair| pair[0].0 != pair[1].0);
    single || draft.last_wide() > 0
}

fn s_above_k(draft: &mut Draft) -> bool {
    if draft.record.s != draft.record.k || draft.record.k == 0 {
        return false;
    }
    draft.record.s += 1;
    let page = draft.fresh();
    draft.insert(draft.record.s, page)
}

fn top_not_single(draft: &mut Draft) -> bool {
    let join_at = draft.record.k.saturating_sub(draft.record.a);
    let page = draft.fresh();
    draft.record.s > join_at && draft.insert(draft.record.s, page)
}

fn low_not_single(draft: &mut Draft) -> bool {
    let join_at = draft.record.k.saturating_sub(draft.record.a);
    let page = draft.fresh();
    draft.record.s > 0 && draft.record.s <= join_at && draft.insert(1, page)
}

/// No place is free, and the page is none of the table's. With a = k everything would join L0 at 1b.
pub fn no_place(draft: &mut Draft) -> bool {
    draft.page = draft.fresh();
    draft.spare = 0;
    draft.record.s < draft.record.k || draft.record.a < draft.record.k
}

pub const RULES: [Rule; 3] = [Rule::Append, Rule::Join, Rule::Lift];

/// A sound state after a drawn trace, on a table with some places to spare or none.
fn drawn_sound(k: u32, a: u32, rng: &mut Rng) -> Draft {
    let n = rng.between(0, 3 * k.min(12) as usize);
    let mut trace = any(k, a, n, rng);
    trace.iter_mut().for_each(|page| *page %= 16);
    let spare = if rng.once_in(3) { 0 } else { rng.below(5) };
    let mut draft = Draft::after(k, a, &trace, spare);
    draft.page = rng.below(18) as u32;
    if rng.once_in(6) {
        let requests = rng.pick(&[u32::MAX - 1, u32::MAX]);
        count_up(&mut draft.record, requests, rng.pick(&RULES));
    }
    draft
}

/// Splits the requests that are no joins another way, at times with a sum that is right modulo 2^32 only.
fn split_anew(record: &mut Record, rng: &mut Rng) {
    let others = no_joins(record);
    let appends = rng.pick(&[0, others / 2, others, others.wrapping_add(1), 1 << 31, u32::MAX]);
    split(record, appends);
}

/// One change to the counters of a record, which may leave them sound.
fn disturb_counters(record: &mut Record, rng: &mut Rng) {
    let (requests, noise) = (record.requests, rng.word());
    match rng.below(4) {
        0 => record.evictions = requests.wrapping_add(rng.below(2) as u32),
        1 => {
            let count = record.count_of(rng.pick(&RULES));
            *count = rng.pick(&[0, count.wrapping_add(1), count.wrapping_sub(1), noise]);
        }
        2 => {
            record.joins = rng.pick(&[0, requests, requests.wrapping_add(1), noise]);
            record.evictions = record.joins;
            split_anew(record, rng);
        }
        _ => split_anew(record, rng),
    }
}

/// One change to a state, which may leave it sound.
pub fn disturb(draft: &mut Draft, rng: &mut Rng) {
    let places = draft.rows.len();
    let noise = rng.word();
    let value = rng.pick(&[0, 1, 2, draft.record.s, draft.record.s.wrapping_add(1), noise]);
    match rng.below(12) {
        0 => draft.record.s = value,
        1 => (draft.record.k, draft.record.a) = any_sizes(rng),
        2 => draft.short[0] += 1,
        3 => draft.short[1] += 1,
        4..=7 => disturb_counters(&mut draft.record, rng),
        8 if places > 0 => draft.rows[rng.below(places)].0 = value,
        9 if places > 0 => draft.rows[rng.below(places)].1 = value,
        10 if places > 0 => draft.rows.swap(rng.below(places), rng.below(places)),
        11 if places > 0 => draft.rows[rng.below(places)].1 = draft.rows[rng.below(places)].1,
        _ => {}
    }
}

/// A drawn state, sound or not.
pub fn drawn(rng: &mut Rng) -> Draft {
    let k = if rng.once_in(10) { rng.pick(&[16, 255, 256]) } else { rng.between(1, 8) };
    let a = if rng.once_in(4) { k } else { rng.between(1, k) };
    let mut draft = drawn_sound(k as u32, a as u32, rng);
    for _ in 0..rng.pick(&[0, 0, 1, 1, 2]) {
        disturb(&mut draft, rng);
    }
    draft
}

/// All tables of up to three places with pages 0 to 2, under every k up to 3, every a from 1 to k and every
/// s up to 4, given to a function. Most of them are not well formed.
pub fn all_small(mut give: impl FnMut(&Draft)) {
    for places in 0..=3 {
        for numbers in all_lists(5, places) {
            for pages in all_lists(3, places) {
                let rows: Vec<(u32, u32)> = numbers.iter().copied().zip(pages).collect();
                small_records(&rows, &mut give);
            }
        }
    }
}

fn small_records(rows: &[(u32, u32)], give: &mut impl FnMut(&Draft)) {
    for k in 1..=3 {
        for a in 1..=k {
            for s in 0..=4 {
                let record = Record { k, a, requests: 5, evictions: 1, s, appends: 3, joins: 1, lifts: 1 };
                give(&Draft { record, rows: rows.to_vec(), spare: 0, short: [0, 0], page: 0 });
            }
        }
    }
}

/// Every record with counters from a few numbers, on tables at which rules 1a, 1b, 1b for a = k and 1c apply
/// and on one without a place for the page, given to a function. Most of them are not well formed.
pub fn all_counters(mut give: impl FnMut(&Draft)) {
    const NUMBERS: [u32; 7] = [0, 1, 2, 3, 1 << 31, u32::MAX - 1, u32::MAX];
    for (a, trace, spare, page) in
        [(1, &[1][..], 1, 2), (1, &[1, 2], 1, 3), (2, &[1, 2], 0, 3), (1, &[1, 2], 0, 1), (1, &[1], 0, 2)]
    {
        let mut draft = Draft::after(2, a, trace, spare);
        draft.page = page;
        for places in all_lists(NUMBERS.len() as u32, 5) {
            let counters: Vec<u32> = places.iter().map(|&place| NUMBERS[place as usize]).collect();
            if let [requests, evictions, appends, joins, lifts] = counters[..] {
                draft.record = Record { requests, evictions, appends, joins, lifts, ..draft.record };
                give(&draft);
            }
        }
    }
}

/// Pages with equal low halves, as far as they go.
fn in_high_half(name: usize) -> u32 {
    (name as u32).rotate_left(16)
}

/// A table with many pages in layers 1 to k-a and single ones above them. In every second one a page
/// stands in two layers.
pub fn wide(used: usize, rng: &mut Rng) -> Draft {
    let k = rng.between(2, 9);
    let a = rng.between(1, k - 1);
    let name: fn(usize) -> u32 = rng.pick(&[scattered as fn(usize) -> u32, in_high_half, |name| name as u32]);
    let mut layers: Layers = (0..k).map(|layer| BTreeSet::from([name(layer)])).collect();
    for page in k..used {
        layers[rng.below(k - a)].insert(name(page));
    }
    if rng.once_in(2) {
        let twice = name(rng.below(used));
        layers[rng.below(k - a)].insert(twice);
    }
    let (k, a) = (k as u32, a as u32);
    let record = Record { k, a, requests: 70_000, evictions: 9, s: k, appends: 69_900, joins: 9, lifts: 91 };
    let rows = (1..).zip(&layers).flat_map(|(n, layer)| layer.iter().map(move |&page| (n, page))).collect();
    Draft { record, rows, spare: rng.below(2), short: [0, 0], page: name(rng.below(used + used / 4)) }
}
