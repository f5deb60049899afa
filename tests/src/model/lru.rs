//! Least recent use.

use super::queue::Policy;

/// The held pages, from least to most recent.
#[derive(Clone, Debug, PartialEq, Eq)]
pub struct Lru(Vec<u32>);

impl Policy for Lru {
    fn of_list(held: &[u32]) -> Self {
        Lru(held.to_vec())
    }

    fn serve(&mut self, k: u32, a: u32, page: u32) -> Option<Vec<u32>> {
        let Lru(buffer) = self;
        if let Some(place) = buffer.iter().position(|&held| held == page) {
            buffer.remove(place);
            buffer.push(page);
            return None;
        }
        let full = buffer.len() == k as usize;
        let bundle = if full { buffer.drain(..a as usize).collect() } else { Vec::new() };
        buffer.push(page);
        Some(bundle)
    }

    fn list(&self) -> Vec<u32> {
        self.0.clone()
    }
}
