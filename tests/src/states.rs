//! Inputs for single calls: states that requests reach, states with a fault, drawn states, and all small
//! states.

pub mod layers;
pub mod mark;
pub mod mark_faults;
pub mod queue;

/// A condition of a call, broken: the refusal that is due if nothing else is wrong, and how to break it.
/// A state that cannot be broken so is left, and false is given.
pub struct Fault<S> {
    pub name: &'static str,
    pub refusal: u32,
    pub apply: fn(&mut S) -> bool,
}

/// All pairs k, a around the ends of their ranges, sound ones and others.
pub fn border_sizes() -> Vec<(u32, u32)> {
    let mut out = Vec::new();
    for k in [0, 1, 2, 3, 5, 255, 256, 257, 65_535, u32::MAX] {
        for a in [0, 1, 2, k / 2, k.wrapping_sub(1), k, k.wrapping_add(1), 256, 257, u32::MAX] {
            out.push((k, a));
        }
    }
    out.sort_unstable();
    out.dedup();
    out
}

/// Pages at the ends of their range first.
pub fn end_page(name: usize) -> u32 {
    let half = name as u32 / 2;
    if name % 2 == 0 {
        half
    } else {
        u32::MAX - half
    }
}

/// All lists of a length over the numbers below `symbols`.
pub fn all_lists(symbols: u32, length: usize) -> Vec<Vec<u32>> {
    let mut out = vec![Vec::new()];
    for _ in 0..length {
        out = out
            .iter()
            .flat_map(|list: &Vec<u32>| (0..symbols).map(move |symbol| [&list[..], &[symbol]].concat()))
            .collect();
    }
    out
}
