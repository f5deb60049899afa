//! Requests to least recent use and to oldest load first, and previews of them.

use super::{all_met, break_state, due, SOUND};
use crate::calls::queue::{Exported, Preview, Request};
use crate::calls::{Answer, Lent, Reached};
use crate::model::queue::Record;
use crate::report::differs;
use crate::rng::Rng;
use crate::states::queue::{all_small, drawn, State, FAULTS};
use crate::states::{border_sizes, end_page};
use crate::traces::{any, sizes};

/// A request, and before it its preview in the same state. Gives what the request left and answered.
fn both<P: Exported>(reached: &mut Reached, request: &Request<P>) -> (Request<P>, Answer) {
    reached.compare(&Preview(request.clone()));
    reached.compare(request)
}

/// Previews of some pages, then of the request's, then the request, all lent one evicted list: the request
/// answers what the last preview told, and leaves that list as it is.
fn asked_first<P: Exported>(reached: &mut Reached, request: &Request<P>, others: &[u32]) {
    let mut asked = Preview(request.clone());
    for &page in others {
        asked.0.page = page;
        asked = reached.compare(&asked).0;
    }
    asked.0.page = request.page;
    let (Preview(asked), told) = reached.compare(&asked);
    let (served, answer) = reached.compare(&asked);
    if told != answer || asked.evicted != served.evicted {
        let input = [("call", format!("{:?}", asked))];
        differs(P::REQUEST.0, &input, &(&told, &asked.evicted), &(&answer, &served.evicted));
    }
}

/// Lists of requests, from the empty record and any cache list on, each previewed before it is made.
fn walks<P: Exported>(reached: &mut Reached, rng: &mut Rng) {
    for _ in 0..300 {
        let (k, a) = sizes(rng);
        let mut call = State::empty(k, a, rng).request::<P>();
        for page in any(k, a, 200, rng) {
            call.page = page;
            call.evicted = Lent::new(&vec![3; a as usize + rng.below(3) - usize::from(rng.once_in(50))]);
            asked_first(reached, &call, &[page ^ 1, page.wrapping_add(1)]);
            let (mut left, answer) = both(reached, &call);
            left.go_on(&answer);
            call = left;
        }
    }
}

fn faults<P: Exported>(reached: &mut Reached, rng: &mut Rng) {
    let mut alone = [0; FAULTS.len()];
    for (k, a) in SOUND {
        for requests in [0, 1, 2, k as usize, 2 * k as usize, 2 * k as usize + 3] {
            let sound = State::reached::<P>(k, a, requests, rng);
            both(reached, &sound.request::<P>());
            break_state(&sound, &FAULTS, &mut alone, |state, expected| {
                let (_, answer) = both(reached, &state.request::<P>());
                due(P::REQUEST.0, state, expected, answer.refusal);
            });
        }
    }
    all_met(P::REQUEST.0, &FAULTS, &alone);
}

/// k and a, counters, counts and pages at the ends of their ranges.
fn borders<P: Exported>(reached: &mut Reached) {
    const FULL: u32 = u32::MAX;
    let counters = [(0, 0, 0), (FULL - 1, FULL - 1, FULL - 1), (FULL, FULL, FULL), (FULL - 1, 3, 0)];
    for (k, a) in border_sizes() {
        for (requests, loads, evictions) in counters {
            for count in [0, 1, k / 2, k, k.wrapping_add(1), FULL] {
                for page in [0, 1, FULL, FULL - 1, 9] {
                    let cache = (0..k.min(258) as usize).map(end_page).collect();
                    let evicted = vec![7; a.min(258) as usize];
                    let record = Record { k, a, requests, loads, evictions };
                    both(reached, &State { record, count, cache, evicted, page }.request::<P>());
                }
            }
        }
    }
}

pub fn all<P: Exported>(reached: &mut Reached, rng: &mut Rng) {
    walks::<P>(reached, rng);
    faults::<P>(reached, rng);
    borders::<P>(reached);
    all_small(|state| {
        both(reached, &state.request::<P>());
    });
    for _ in 0..60_000 {
        both(reached, &drawn(rng).request::<P>());
    }
}
