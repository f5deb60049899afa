//! Whether MIN's bundles tell the order by age from an order by number and from one by load.

use crate::model::Bundle;
use std::collections::HashMap;

/// In how many bundles two pages that are never requested again stand one behind the other against their
/// numbers, and in how many against their loads.
#[derive(Default)]
pub struct Against {
    pub numbers: usize,
    pub loads: usize,
}

pub fn against(trace: &[u32], bundles: &[Bundle]) -> Against {
    let mut found = Against::default();
    let end: HashMap<u32, usize> = trace.iter().enumerate().map(|(t, &page)| (page, t)).collect();
    // The pages held, with the request at which each was loaded.
    let mut loaded: HashMap<u32, usize> = HashMap::new();
    let mut bundles = bundles.iter().peekable();
    for (t, &page) in trace.iter().enumerate() {
        if let Some((_, bundle)) = bundles.next_if(|bundle| bundle.0 as usize == t) {
            let never_again: Vec<u32> = bundle.iter().copied().filter(|page| end[page] < t).collect();
            let mut pairs = never_again.windows(2);
            found.numbers += usize::from(pairs.clone().any(|pair| pair[0] > pair[1]));
            found.loads += usize::from(pairs.any(|pair| loaded[&pair[0]] > loaded[&pair[1]]));
            for gone in bundle {
                loaded.remove(gone);
            }
        }
        loaded.entry(page).or_insert(t);
    }
    found
}
