//! The static library `exports` compared with the second implementation, call by call.

pub mod editions;
pub mod files;
pub mod layers;
pub mod mark;
pub mod mark_traces;
pub mod queue;
pub mod runs;
pub mod traces;

use crate::report::differs;
use crate::states::Fault;
use std::fmt::Debug;

/// Sound sizes with the ends of both ranges among them.
const SOUND: [(u32, u32); 10] =
    [(1, 1), (2, 1), (2, 2), (3, 2), (4, 2), (5, 3), (6, 1), (255, 254), (256, 1), (256, 256)];

/// Breaks a sound state by each fault alone and by each two of them, and hands it on with the refusal that
/// is due, where a single fault says it. Counts how often each fault was met alone.
fn break_state<S: Clone + Debug>(
    sound: &S,
    faults: &[Fault<S>],
    alone: &mut [usize],
    mut give: impl FnMut(&S, Option<u32>),
) {
    for (place, fault) in faults.iter().enumerate() {
        let mut broken = sound.clone();
        if !(fault.apply)(&mut broken) {
            continue;
        }
        alone[place] += 1;
        give(&broken, Some(fault.refusal));
        for other in faults {
            let mut twice = broken.clone();
            if (other.apply)(&mut twice) {
                give(&twice, None);
            }
        }
    }
}

/// Ends the program if a fault was never met alone.
fn all_met<S>(test: &str, faults: &[Fault<S>], alone: &[usize]) {
    if let Some((fault, _)) = faults.iter().zip(alone).find(|(_, &times)| times == 0) {
        differs(test, &[("fault", fault.name.to_string())], &"a state with this fault", &"none");
    }
}

/// Ends the program if a fault alone does not have its refusal.
fn due(test: &str, state: &dyn Debug, expected: Option<u32>, refusal: u32) {
    if expected.map_or(false, |expected| expected != refusal) {
        differs(test, &[("state", format!("{:?}", state))], &expected, &refusal);
    }
}
