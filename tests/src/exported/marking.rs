//! Marking with revealed pages.

use crate::model::layers;
use crate::model::mark::{Lists, Record};

mod c {
    // Linked by `exports`.
    extern "C" {
        pub fn mark_request(
            k: u32,
            a: u32,
            requests: u32,
            loads: u32,
            evictions: u32,
            t: u32,
            layers_k: u32,
            layers_a: u32,
            layers_requests: u32,
            layers_evictions: u32,
            s: u32,
            appends: u32,
            joins: u32,
            lifts: u32,
            count: u32,
            cache: *mut u32,
            cache_len: usize,
            marks: *mut u32,
            marks_len: usize,
            priorities: *mut u64,
            priorities_len: usize,
            evicted: *mut u32,
            evicted_len: usize,
            pages: *mut u32,
            pages_len: usize,
            numbers: *mut u32,
            numbers_len: usize,
            times: *mut u32,
            times_len: usize,
            page: u32,
            out: *mut u64,
            out_len: usize,
        );
        pub fn mark_over_trace(
            k: u32,
            a: u32,
            trace: *const u32,
            trace_len: usize,
            pages: *mut u32,
            pages_len: usize,
            numbers: *mut u32,
            numbers_len: usize,
            times: *mut u32,
            times_len: usize,
            out: *mut u64,
            out_len: usize,
        );
    }
}

/// Refusal; k, a, requests, loads, evictions, t; the layers' k, a, requests, evictions, s, appends, joins,
/// lifts; count, answer.
pub fn mark_request(record: &Record, count: u32, lists: &mut Lists, page: u32, out: &mut [u64]) {
    let layers::Record { k, a, requests, evictions, s, appends, joins, lifts } = record.layers;
    unsafe {
        c::mark_request(
            record.k,
            record.a,
            record.requests,
            record.loads,
            record.evictions,
            record.t,
            k,
            a,
            requests,
            evictions,
            s,
            appends,
            joins,
            lifts,
            count,
            lists.cache.as_mut_ptr(),
            lists.cache.len(),
            lists.marks.as_mut_ptr(),
            lists.marks.len(),
            lists.priorities.as_mut_ptr(),
            lists.priorities.len(),
            lists.evicted.as_mut_ptr(),
            lists.evicted.len(),
            lists.pages.as_mut_ptr(),
            lists.pages.len(),
            lists.numbers.as_mut_ptr(),
            lists.numbers.len(),
            lists.times.as_mut_ptr(),
            lists.times.len(),
            page,
            out.as_mut_ptr(),
            out.len(),
        )
    }
}

/// Refusal, bundles, loads.
pub fn mark_over_trace(
    k: u32,
    a: u32,
    trace: &[u32],
    pages: &mut [u32],
    numbers: &mut [u32],
    times: &mut [u32],
    out: &mut [u64],
) {
    unsafe {
        c::mark_over_trace(
            k,
            a,
            trace.as_ptr(),
            trace.len(),
            pages.as_mut_ptr(),
            pages.len(),
            numbers.as_mut_ptr(),
            numbers.len(),
            times.as_mut_ptr(),
            times.len(),
            out.as_mut_ptr(),
            out.len(),
        )
    }
}
