//! Oldest load first: a bundle takes the pages that were loaded longest ago, and a hit moves none.

use super::queue::Policy;
use std::collections::BTreeMap;

/// Each held page under the number of its load, and the number that the next load gets. A page that is
/// evicted and loaded again gets a new number, and so is the newest.
#[derive(Clone, Debug, PartialEq, Eq)]
pub struct Fifo {
    by_load: BTreeMap<usize, u32>,
    next_load: usize,
}

impl Policy for Fifo {
    /// A cache list runs from the oldest to the newest load.
    fn of_list(held: &[u32]) -> Self {
        Fifo { by_load: (0..).zip(held.iter().copied()).collect(), next_load: held.len() }
    }

    fn serve(&mut self, k: u32, a: u32, page: u32) -> Option<Vec<u32>> {
        if self.by_load.values().any(|&held| held == page) {
            return None;
        }
        let going = if self.by_load.len() == k as usize { a as usize } else { 0 };
        let oldest: Vec<usize> = self.by_load.keys().copied().take(going).collect();
        let bundle = oldest.iter().filter_map(|load| self.by_load.remove(load)).collect();
        self.by_load.insert(self.next_load, page);
        self.next_load += 1;
        Some(bundle)
    }

    fn list(&self) -> Vec<u32> {
        self.by_load.values().copied().collect()
    }
}
