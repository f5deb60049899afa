//! The two editions of a trace's file, from Req 08: the old one has one RQ a request, the new one writes the
//! longest runs of a page as RRs.

use super::files::{read_trace, trace_file, trace_of, Asked, Trace};
use super::{Refusal, BENCH_MAX};

/// An edition: the bytes of a trace's file with k, a and these pages.
pub type Edition = fn(u32, u32, &[u32]) -> Vec<u8>;

/// One RQ a request.
pub fn old_edition(k: u32, a: u32, pages: &[u32]) -> Vec<u8> {
    trace_file(k, a, pages)
}

/// For each longest run of a page its records.
pub fn new_edition(k: u32, a: u32, pages: &[u32]) -> Vec<u8> {
    let runs = longest_runs(pages);
    let records: Vec<Asked> = runs.into_iter().flat_map(|(page, times)| run_records(page, times)).collect();
    trace_of(k, a, &records)
}

/// The longest runs of requests of one page, in order: each page, and how often it is asked for in a row.
fn longest_runs(pages: &[u32]) -> Vec<(u32, usize)> {
    let mut runs: Vec<(u32, usize)> = Vec::new();
    for &page in pages {
        match runs.last_mut() {
            Some(run) if run.0 == page => run.1 += 1,
            _ => runs.push((page, 1)),
        }
    }
    runs
}

/// The records of a run: RQ for a run of one, RR for a longer one. Above 65,535 requests an RR of 65,535
/// comes first, and the rest is written as a run.
fn run_records(page: u32, times: usize) -> Vec<Asked> {
    match times {
        1 => vec![Asked::Rq { page }],
        2..=65_535 => vec![Asked::Rr { page, times: times as u16 }],
        _ => [vec![Asked::Rr { page, times: 65_535 }], run_records(page, times - 65_535)].concat(),
    }
}

/// The trace of a file of at most `most` requests, in an edition.
fn turned(edition: Edition, file: &[u8], most: usize) -> Result<Vec<u8>, Refusal> {
    let Trace { k, a, pages } = read_trace(file, most)?;
    Ok(edition(k, a, &pages))
}

/// Turns a file into an edition in lent bytes and gives its length: the file's own refusals, then 8, with
/// nothing written, if the whole edition does not fit.
pub fn convert(edition: Edition, file: &[u8], most: usize, bytes: &mut [u8]) -> Result<usize, Refusal> {
    let output = turned(edition, file, most)?;
    bytes.get_mut(..output.len()).ok_or(8u32)?.copy_from_slice(&output);
    Ok(output.len())
}

/// What a program prints for its standard input: the edition's bytes, or the line of a refusal.
pub fn printed(edition: Edition, input: &[u8]) -> Vec<u8> {
    turned(edition, input, BENCH_MAX).unwrap_or_else(|refusal| format!("refused {}\n", refusal).into_bytes())
}
