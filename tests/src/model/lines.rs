//! What `bench` prints for its standard input.

use super::fifo::Fifo;
use super::files::{read_trace, Trace};
use super::lru::Lru;
use super::{layers, mark, min, queue, Refusal, BENCH_MAX};

fn lines_of(trace: &Trace) -> Result<String, Refusal> {
    let Trace { k, a, pages } = trace;
    let best = min::run(*k, *a, pages)?;
    let recent = queue::run::<Lru>(*k, *a, pages)?;
    let oldest = queue::run::<Fifo>(*k, *a, pages)?;
    let marking = mark::run(mark::rdm, *k, *a, pages)?;
    let layered = layers::run(*k, *a, pages)?;
    Ok(format!(
        "trace {} {} {}\nmin {} {}\nlru {} {}\nfifo {} {}\nmark {} {}\nlayers {} {} {}\n",
        k,
        a,
        pages.len(),
        best.bundles.len(),
        best.loads,
        recent.bundles.len(),
        recent.loads,
        oldest.bundles.len(),
        oldest.loads,
        marking.bundles.len(),
        marking.state.record.loads,
        layered.record.evictions,
        layered.layers.len(),
        layers::revealed_of(&layered.layers),
    ))
}

/// The lines of a trace, or the line of a refusal.
pub fn lines(input: &[u8]) -> String {
    match read_trace(input, BENCH_MAX).and_then(|trace| lines_of(&trace)) {
        Ok(lines) => lines,
        Err(refusal) => format!("refused {}\n", refusal),
    }
}
