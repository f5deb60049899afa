//! The judge of a trace's file and a schedule's file.

use super::files::{read_trace, Cursor, Entry, Trace};
use super::{Refusal, TRACE_MAX};
use std::collections::HashSet;

/// A schedule under judgement: request t is open, those before it are closed.
struct Standing<'a> {
    trace: &'a Trace,
    t: usize,
    buffer: HashSet<u32>,
    /// A PF was met at the open request.
    fetched: bool,
    cost: u32,
}

impl Standing<'_> {
    /// Closes the requests before t; 7 at the first that leaves more than k pages.
    fn close_before(&mut self, t: usize) -> Result<(), Refusal> {
        while self.t < t {
            self.buffer.insert(self.trace.pages[self.t]);
            if self.buffer.len() > self.trace.k as usize {
                return Err(7);
            }
            self.t += 1;
            self.fetched = false;
        }
        Ok(())
    }

    /// Opens request t for a record; 6 if t falls or is not a request, and then nothing is closed.
    fn open(&mut self, t: u32) -> Result<(), Refusal> {
        let t = t as usize;
        if t < self.t || t >= self.trace.pages.len() {
            return Err(6);
        }
        self.close_before(t)
    }

    fn take(&mut self, entry: &Entry) -> Result<(), Refusal> {
        match entry {
            Entry::Ev { t, pages } => {
                self.open(*t)?;
                if self.fetched || !pages.iter().all(|page| self.buffer.remove(page)) {
                    return Err(6);
                }
                self.cost += 1;
            }
            Entry::Pf { t, page } => {
                self.open(*t)?;
                if !self.buffer.insert(*page) {
                    return Err(6);
                }
                self.fetched = true;
            }
        }
        Ok(())
    }
}

/// The cost of a schedule's file for a trace's file.
pub fn judge(trace: &[u8], schedule: &[u8]) -> Result<u32, Refusal> {
    let trace = read_trace(trace, TRACE_MAX)?;
    let mut file = Cursor::new(schedule);
    if file.sizes()? != (trace.k, trace.a) {
        return Err(6);
    }
    let mut standing = Standing { trace: &trace, t: 0, buffer: HashSet::new(), fetched: false, cost: 0 };
    while !file.at_end() {
        standing.take(&file.entry(trace.a)?)?;
    }
    standing.close_before(trace.pages.len())?;
    Ok(standing.cost)
}
