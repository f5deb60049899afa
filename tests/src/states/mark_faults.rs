//! Faults of a state of marking: what breaks each condition of a request, and what breaks none.

use super::layers::{self, count_up};
use super::mark::Draft;
use super::Fault;
use crate::model::layers::Rule;

impl Draft {
    /// Raises the request counters of both records to the end; the requests that are added are counted as
    /// lifts.
    fn fill_counters(&mut self) -> bool {
        count_up(&mut self.layers.record, u32::MAX, Rule::Lift);
        self.as_layers();
        true
    }

    /// The last place held, if there is one.
    fn last_held(&self) -> Option<usize> {
        (self.count as usize).checked_sub(1).filter(|&place| place < self.cache.len().min(self.marks.len()))
    }

    fn mark_last(&mut self, mark: u32) -> bool {
        self.last_held().map(|place| self.marks[place] = mark).is_some()
    }

    /// Two cached pages stand in the wrong order, or one of them twice.
    fn disorder(&mut self, twice: bool) -> bool {
        match self.last_held() {
            Some(last) if last > 0 => {
                self.cache.swap(last - 1, last);
                if twice {
                    self.cache[last] = self.cache[last - 1];
                }
                true
            }
            _ => false,
        }
    }

    /// A t0 above t at a used place.
    fn late(&mut self, place: usize) -> bool {
        self.other_t0.push((place, self.record.t.wrapping_add(1)));
        place < self.layers.rows.len() && self.record.t < u32::MAX
    }

    /// A t0 at a place behind the table's rows.
    fn unused_t0(&mut self, behind: usize) -> bool {
        self.other_t0.push((self.layers.rows.len() + behind, 1));
        behind < self.layers.spare && self.record.t > 0
    }
}

/// Every condition of a request that is not the layers' own, broken alone. What the layers' own conditions
/// give is in their table of faults.
pub const FAULTS: [Fault<Draft>; 40] = [
    Fault { name: "k is 0", refusal: 1, apply: |draft| set(&mut draft.record.k, 0) },
    Fault { name: "k is 257", refusal: 1, apply: |draft| set(&mut draft.record.k, 257) },
    Fault { name: "a is 0", refusal: 2, apply: |draft| set(&mut draft.record.a, 0) },
    Fault {
        name: "a is k + 1",
        refusal: 2,
        apply: |draft| set(&mut draft.record.a, draft.record.k.wrapping_add(1)),
    },
    Fault { name: "the three lists of cached pages are a place short", refusal: 8, apply: cut_all },
    Fault { name: "the cache alone is a place short", refusal: 8, apply: |draft| cut(&mut draft.cache) },
    Fault { name: "the marks are a place short", refusal: 8, apply: |draft| cut(&mut draft.marks) },
    Fault { name: "the priorities are a place short", refusal: 8, apply: |draft| cut(&mut draft.priorities) },
    Fault { name: "the cache has a place over", refusal: 8, apply: |draft| add(&mut draft.cache) },
    Fault { name: "the marks have a place over", refusal: 8, apply: |draft| add(&mut draft.marks) },
    Fault { name: "the priorities have a place over", refusal: 8, apply: |draft| add(&mut draft.priorities) },
    Fault { name: "the evicted list is a place short", refusal: 8, apply: cut_evicted },
    Fault { name: "a page place less", refusal: 8, apply: |draft| shorten(draft, 0) },
    Fault { name: "a number place less", refusal: 8, apply: |draft| shorten(draft, 1) },
    Fault {
        name: "a t0 place less",
        refusal: 8,
        apply: |draft| {
            draft.t0_places.0 += 1;
            draft.layers.rows.len() + draft.layers.spare > 0
        },
    },
    Fault {
        name: "a t0 place over",
        refusal: 8,
        apply: |draft| {
            draft.t0_places.1 += 1;
            true
        },
    },
    Fault {
        name: "count is k + 1",
        refusal: 9,
        apply: |draft| set(&mut draft.count, draft.record.k.wrapping_add(1)),
    },
    Fault { name: "count is the largest number", refusal: 9, apply: |draft| set(&mut draft.count, u32::MAX) },
    Fault { name: "cached pages not in order", refusal: 9, apply: |draft| draft.disorder(false) },
    Fault { name: "a cached page twice", refusal: 9, apply: |draft| draft.disorder(true) },
    Fault { name: "a mark of 2", refusal: 9, apply: |draft| draft.mark_last(2) },
    Fault { name: "a mark of the largest number", refusal: 9, apply: |draft| draft.mark_last(u32::MAX) },
    Fault { name: "a first mark of 256", refusal: 9, apply: first_mark },
    Fault {
        name: "evictions above loads",
        refusal: 9,
        apply: |draft| set(&mut draft.record.evictions, draft.record.loads.wrapping_add(1)),
    },
    Fault {
        name: "loads above requests",
        refusal: 9,
        apply: |draft| set(&mut draft.record.loads, draft.record.requests.wrapping_add(1)),
    },
    Fault {
        name: "t above requests",
        refusal: 9,
        apply: |draft| set(&mut draft.record.t, draft.record.requests.wrapping_add(1)),
    },
    Fault { name: "a first t0 above t", refusal: 9, apply: |draft| draft.late(0) },
    Fault {
        name: "a last t0 above t",
        refusal: 9,
        apply: |draft| draft.late(draft.layers.rows.len().wrapping_sub(1)),
    },
    Fault { name: "a t0 in the first unused place", refusal: 9, apply: |draft| draft.unused_t0(0) },
    Fault {
        name: "a t0 in the last unused place",
        refusal: 9,
        apply: |draft| draft.unused_t0(draft.layers.spare.wrapping_sub(1)),
    },
    Fault {
        name: "the layers' k is one more",
        refusal: 9,
        apply: |draft| set(&mut draft.layers.record.k, draft.record.k.wrapping_add(1)),
    },
    Fault {
        name: "the layers' k is 0, their a too",
        refusal: 9,
        apply: |draft| set(&mut draft.layers.record.k, 0) && set(&mut draft.layers.record.a, 0),
    },
    Fault {
        name: "the layers' a is another",
        refusal: 9,
        apply: |draft| set(&mut draft.layers.record.a, draft.record.a ^ 3),
    },
    Fault {
        name: "the layers have had a lift more",
        refusal: 9,
        apply: |draft| count_up(&mut draft.layers.record, draft.record.requests.wrapping_add(1), Rule::Lift),
    },
    Fault {
        name: "the layers have had a join more",
        refusal: 9,
        apply: |draft| count_up(&mut draft.layers.record, draft.record.requests.wrapping_add(1), Rule::Join),
    },
    Fault {
        name: "the policy has had a request more",
        refusal: 9,
        apply: |draft| {
            draft.record.requests = draft.record.requests.wrapping_add(1);
            true
        },
    },
    Fault {
        name: "the policy's counter is full",
        refusal: 9,
        apply: |draft| set(&mut draft.record.requests, u32::MAX),
    },
    Fault { name: "both request counters are full", refusal: 12, apply: Draft::fill_counters },
    Fault {
        name: "both are full, and there is no place",
        refusal: 12,
        apply: |draft| layers::no_place(&mut draft.layers) && draft.fill_counters(),
    },
    Fault {
        name: "no place for the page",
        refusal: 10,
        apply: |draft| draft.t0_places == (0, 0) && layers::no_place(&mut draft.layers),
    },
];

/// Changes that no condition speaks of: what the request is answered stays sound or keeps its refusal.
pub const NOT_JUDGED: [Fault<Draft>; 6] = [
    Fault { name: "pages behind the count", refusal: 0, apply: |draft| behind(draft, 0) },
    Fault { name: "marks behind the count", refusal: 0, apply: |draft| behind(draft, 1) },
    Fault {
        name: "other priorities",
        refusal: 0,
        apply: |draft| {
            let changed = draft.priorities.iter_mut().enumerate();
            changed.for_each(|(place, priority)| *priority = u64::MAX - (place as u64 % 2));
            true
        },
    },
    Fault {
        name: "no t0 at all",
        refusal: 0,
        apply: |draft| {
            draft.t0.clear();
            true
        },
    },
    Fault {
        name: "every t0 is t",
        refusal: 0,
        apply: |draft| {
            let t = draft.record.t;
            draft.t0.values_mut().for_each(|t0| *t0 = t);
            true
        },
    },
    Fault {
        name: "no load was counted",
        refusal: 0,
        apply: |draft| set(&mut draft.record.evictions, 0) && set(&mut draft.record.loads, 0),
    },
];

fn set(field: &mut u32, value: u32) -> bool {
    *field = value;
    true
}

fn cut<T>(list: &mut Vec<T>) -> bool {
    list.pop().is_some()
}

fn add<T: Default>(list: &mut Vec<T>) -> bool {
    list.push(T::default());
    true
}

/// Leaves the three lists of cached pages a place less than k.
fn cut_all(draft: &mut Draft) -> bool {
    let places = (draft.record.k as usize).saturating_sub(1);
    draft.cache.truncate(places);
    draft.marks.truncate(places);
    draft.priorities.truncate(places);
    draft.record.k > 0
}

fn cut_evicted(draft: &mut Draft) -> bool {
    draft.evicted.truncate((draft.record.a as usize).saturating_sub(1));
    draft.record.a > 0
}

fn shorten(draft: &mut Draft, list: usize) -> bool {
    draft.layers.short[list] += 1;
    draft.layers.rows.len() + draft.layers.spare > 0
}

fn first_mark(draft: &mut Draft) -> bool {
    match draft.marks.first_mut() {
        Some(mark) if draft.count > 0 => *mark = 256,
        _ => return false,
    }
    true
}

/// Puts what would be wrong before the count behind it.
fn behind(draft: &mut Draft, list: usize) -> bool {
    let list = if list == 0 { &mut draft.cache } else { &mut draft.marks };
    let behind = list.iter_mut().skip(draft.count as usize);
    behind.map(|value| *value = 2).count() > 1
}
