//! Least recent use on a list from least to most recent.

/// One request with no check of the state: 0 for a hit, 1 for a load, 2 for a load after a bundle.
pub fn request(
    k: usize,
    a: usize,
    count: &mut usize,
    cache: &mut [u32],
    evicted: &mut [u32],
    page: u32,
) -> u32 {
    let held = &mut cache[..*count];
    if let Some(place) = held.iter().position(|&other| other == page) {
        held.copy_within(place + 1.., place);
        held[*count - 1] = page;
        return 0;
    }
    let mut answer = 1;
    if *count == k {
        evicted[..a].copy_from_slice(&held[..a]);
        held.copy_within(a.., 0);
        held[k - a..].fill(0);
        *count = k - a;
        answer = 2;
    }
    cache[*count] = page;
    *count += 1;
    answer
}

/// Bundles and loads of a whole trace.
pub fn run(k: u32, a: u32, trace: &[u32]) -> (u32, u32) {
    let (mut cache, mut evicted) = ([0; 256], [0; 256]);
    let (mut count, mut bundles, mut loads) = (0, 0, 0);
    for &page in trace {
        let answer = request(k as usize, a as usize, &mut count, &mut cache, &mut evicted, page);
        bundles += u32::from(answer == 2);
        loads += u32::from(answer != 0);
    }
    (bundles, loads)
}
