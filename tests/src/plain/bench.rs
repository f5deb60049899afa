//! The lines for a sound trace.

use super::judge::trace_pages;
use super::{fifo, layers, lru, mark, min};

pub fn lines(input: &[u8]) -> Option<String> {
    let pages = trace_pages(input)?;
    let k = u32::from(u16::from_le_bytes(input[2..4].try_into().ok()?));
    let a = u32::from(u16::from_le_bytes(input[4..6].try_into().ok()?));
    let best = min::run(k, a, &pages, |_, _| {});
    let recent = lru::run(k, a, &pages);
    let oldest = fifo::run(k, a, &pages);
    let marking = mark::run(k, a, &pages);
    let (bundles, table) = layers::run(k, a, &pages);
    Some(format!(
        "trace {} {} {}\nmin {} {}\nlru {} {}\nfifo {} {}\nmark {} {}\nlayers {} {} {}\n",
        k,
        a,
        pages.len(),
        best.0,
        best.1,
        recent.0,
        recent.1,
        oldest.0,
        oldest.1,
        marking.0,
        marking.1,
        bundles,
        table.s,
        table.revealed()
    ))
}
