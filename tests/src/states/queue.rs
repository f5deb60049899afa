//! States of least recent use and of oldest load first, with the request that they get.

use super::{all_lists, end_page, Fault};
use crate::calls::queue::Request;
use crate::calls::Lent;
use crate::model::queue::{self, Policy, Record};
use crate::rng::Rng;
use crate::traces::any_sizes;
use std::marker::PhantomData;

/// A request's input before it is lent.
#[derive(Clone, Debug)]
pub struct State {
    pub record: Record,
    pub count: u32,
    pub cache: Vec<u32>,
    pub evicted: Vec<u32>,
    pub page: u32,
}

impl State {
    pub fn request<P>(&self) -> Request<P> {
        Request {
            policy: PhantomData,
            record: self.record.clone(),
            count: self.count,
            cache: Lent::new(&self.cache),
            evicted: Lent::new(&self.evicted),
            page: self.page,
        }
    }

    /// The empty record, with any cache list and places to spare in both lists.
    pub fn empty(k: u32, a: u32, rng: &mut Rng) -> Self {
        let record = Record { k, a, requests: 0, loads: 0, evictions: 0 };
        let cache = (0..k as usize + rng.below(3)).map(|_| rng.word()).collect();
        let evicted = vec![7; a as usize + rng.below(3)];
        State { record, count: 0, cache, evicted, page: 0 }
    }

    /// A state that some requests lead to, by the second implementation. Pages are at the ends of their
    /// range, and little more than k, so that each kind of answer is near.
    pub fn reached<P: Policy>(k: u32, a: u32, requests: usize, rng: &mut Rng) -> Self {
        let mut state = State::empty(k, a, rng);
        let pages = k as usize + 1 + rng.below(4);
        for _ in 0..requests {
            let page = end_page(rng.below(pages));
            let (cache, evicted) = (&mut state.cache, &mut state.evicted);
            let served = queue::request::<P>(&state.record, state.count, cache, evicted, page)
                .expect("the request is sound");
            state.record = served.record;
            state.count = served.count;
        }
        state.page = end_page(rng.below(pages));
        state
    }
}

/// Every condition of a request, broken alone.
pub const FAULTS: [Fault<State>; 14] = [
    Fault { name: "k is 0", refusal: 1, apply: |state| set(&mut state.record.k, 0) },
    Fault { name: "k is 257", refusal: 1, apply: |state| set(&mut state.record.k, 257) },
    Fault { name: "a is 0", refusal: 2, apply: |state| set(&mut state.record.a, 0) },
    Fault {
        name: "a is k + 1",
        refusal: 2,
        apply: |state| set(&mut state.record.a, state.record.k.wrapping_add(1)),
    },
    Fault {
        name: "the cache is a place short",
        refusal: 8,
        apply: |state| cut(&mut state.cache, state.record.k),
    },
    Fault { name: "no cache place", refusal: 8, apply: |state| cut(&mut state.cache, 1) },
    Fault {
        name: "the evicted list is a place short",
        refusal: 8,
        apply: |state| cut(&mut state.evicted, state.record.a),
    },
    Fault {
        name: "count is k + 1",
        refusal: 9,
        apply: |state| set(&mut state.count, state.record.k.wrapping_add(1)),
    },
    Fault { name: "the first page is the last too", refusal: 9, apply: |state| repeat(state, 0) },
    Fault {
        name: "a page stands twice in a row",
        refusal: 9,
        apply: |state| repeat(state, state.count.wrapping_sub(2)),
    },
    Fault {
        name: "evictions above loads",
        refusal: 9,
        apply: |state| set(&mut state.record.evictions, state.record.loads.wrapping_add(1)),
    },
    Fault {
        name: "loads above requests",
        refusal: 9,
        apply: |state| set(&mut state.record.loads, state.record.requests.wrapping_add(1)),
    },
    Fault {
        name: "the request counter is full",
        refusal: 12,
        apply: |state| set(&mut state.record.requests, u32::MAX),
    },
    Fault { name: "all counters are full", refusal: 12, apply: fill_counters },
];

fn set(field: &mut u32, value: u32) -> bool {
    *field = value;
    true
}

/// Leaves a list a place less than needed.
fn cut(list: &mut Vec<u32>, needed: u32) -> bool {
    list.truncate((needed as usize).saturating_sub(1));
    needed > 0
}

/// The page of a place at the last place held as well.
fn repeat(state: &mut State, place: u32) -> bool {
    let (place, last) = (place as usize, (state.count as usize).saturating_sub(1));
    if place >= last || last >= state.cache.len() {
        return false;
    }
    state.cache[last] = state.cache[place];
    true
}

fn fill_counters(state: &mut State) -> bool {
    (state.record.requests, state.record.loads, state.record.evictions) = (u32::MAX, u32::MAX, u32::MAX);
    true
}

/// Three counters, each at most the one before; now and then in disorder or at the end of the range.
fn counters(rng: &mut Rng) -> [u32; 3] {
    let top = match rng.below(8) {
        0 => u32::MAX,
        1 => u32::MAX - 1,
        _ => rng.below(1_000) as u32,
    };
    let middle = if rng.once_in(4) { top } else { top / 2 };
    let mut all = [top, middle, middle / 3];
    if rng.once_in(10) {
        let at = rng.below(3);
        all[at] = all[at].wrapping_add(1);
    }
    if rng.once_in(20) {
        all.swap(0, rng.between(1, 2));
    }
    all
}

/// A list's length: enough places, seldom too few.
fn places(needed: u32, rng: &mut Rng) -> usize {
    let needed = needed.min(300) as usize;
    match rng.below(12) {
        0 => needed.saturating_sub(1),
        1 => rng.below(needed + 1),
        2..=5 => needed,
        _ => needed + rng.below(4),
    }
}

/// A drawn state with pages from a range little above k, so that hits, loads and bundles all occur.
pub fn drawn(rng: &mut Rng) -> State {
    let (k, a) = any_sizes(rng);
    let [requests, loads, evictions] = counters(rng);
    let small = k.min(256) as usize;
    let range = small + 1 + rng.below(4);
    let start = rng.pick(&[0, 1, u32::MAX - 2]);
    let mut cache: Vec<u32> = (0..range).map(|page| start.wrapping_add(page as u32)).collect();
    for at in (1..cache.len()).rev() {
        cache.swap(at, rng.below(at + 1));
    }
    let page = rng.pick(&cache);
    if rng.once_in(6) {
        let (from, to) = (rng.below(range), rng.below(range));
        cache[to] = cache[from];
    }
    cache.resize(places(k, rng), 7);
    let count = match rng.below(12) {
        0 => k.wrapping_add(1),
        1 => rng.word(),
        2..=6 => k,
        _ => rng.below(small + 1) as u32,
    };
    let evicted = (0..places(a, rng)).map(|place| 1_000 + place as u32).collect();
    State { record: Record { k, a, requests, loads, evictions }, count, cache, evicted, page }
}

/// All states with k up to 3, caches of up to 4 places and pages 0 to 2, given to a function.
pub fn all_small(mut give: impl FnMut(&State)) {
    for places in 0..=4 {
        for cache in all_lists(3, places) {
            for k in 0..=3 {
                for a in 0..=k + 1 {
                    small_states(k, a, &cache, &mut give);
                }
            }
        }
    }
}

fn small_states(k: u32, a: u32, cache: &[u32], give: &mut impl FnMut(&State)) {
    for count in 0..=4 {
        for page in 0..=3 {
            let record = Record { k, a, requests: 4, loads: 4, evictions: 2 };
            let evicted = vec![7; (a + page % 2) as usize];
            give(&State { record, count, cache: cache.to_vec(), evicted, page });
        }
    }
}
