//! A preview on a list whose first pages go first: least recent use and oldest load first tell the same.

/// What a request would answer, with no check of the state: 0 for a hit, 1 for a load, 2 for a load after a
/// bundle, which goes into the evicted list.
pub fn preview(k: usize, a: usize, count: usize, cache: &[u32], evicted: &mut [u32], page: u32) -> u32 {
    if cache[..count].contains(&page) {
        return 0;
    }
    if count < k {
        return 1;
    }
    evicted[..a].copy_from_slice(&cache[..a]);
    2
}
