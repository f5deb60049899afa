//! The other calls. Each stores the fields of its answer into the first places of `out`, as many as there
//! is room for. Of a record the refusal's number comes first, 0 for none; of an enum the number of the
//! case, 0 for a refusal.

use crate::model::layers;
use crate::model::queue::Record;

mod c {
    type Numbers = *const u32;
    type NumbersMut = *mut u32;
    type Bytes = *const u8;
    type BytesMut = *mut u8;
    type Out = *mut u64;

    #[link(name = "exports", kind = "static")]
    extern "C" {
        pub fn sizes_refusal(k: u32, a: u32) -> u32;
        pub fn min_count(k: u32, a: u32, trace: Numbers, trace_len: usize, out: Out, out_len: usize);
        pub fn min_schedule(
            k: u32,
            a: u32,
            trace: Numbers,
            trace_len: usize,
            bytes: BytesMut,
            bytes_len: usize,
            out: Out,
            out_len: usize,
        );
        pub fn layers_request(
            k: u32,
            a: u32,
            requests: u32,
            evictions: u32,
            s: u32,
            appends: u32,
            joins: u32,
            lifts: u32,
            pages: NumbersMut,
            pages_len: usize,
            numbers: NumbersMut,
            numbers_len: usize,
            page: u32,
            out: Out,
            out_len: usize,
        );
        pub fn layers_revealed(
            k: u32,
            a: u32,
            requests: u32,
            evictions: u32,
            s: u32,
            appends: u32,
            joins: u32,
            lifts: u32,
            pages: Numbers,
            pages_len: usize,
            numbers: Numbers,
            numbers_len: usize,
            out: Out,
            out_len: usize,
        );
        pub fn layers_possible(
            k: u32,
            a: u32,
            requests: u32,
            evictions: u32,
            s: u32,
            appends: u32,
            joins: u32,
            lifts: u32,
            pages: Numbers,
            pages_len: usize,
            numbers: Numbers,
            numbers_len: usize,
            set: Numbers,
            set_len: usize,
            out: Out,
            out_len: usize,
        );
        pub fn layers_over_trace(
            k: u32,
            a: u32,
            trace: Numbers,
            trace_len: usize,
            pages: NumbersMut,
            pages_len: usize,
            numbers: NumbersMut,
            numbers_len: usize,
            out: Out,
            out_len: usize,
        );
        pub fn read_ka(file: Bytes, file_len: usize, out: Out, out_len: usize);
        pub fn read_trace(file: Bytes, file_len: usize, at: usize, out: Out, out_len: usize);
        pub fn trace_reader(file: Bytes, file_len: usize, at: usize, out: Out, out_len: usize);
        pub fn trace_count(file: Bytes, file_len: usize, most: usize, out: Out, out_len: usize);
        pub fn trace_fill(
            file: Bytes,
            file_len: usize,
            pages: NumbersMut,
            pages_len: usize,
            out: Out,
            out_len: usize,
        );
        pub fn read_schedule(file: Bytes, file_len: usize, at: usize, out: Out, out_len: usize);
        pub fn read_schedule_within(
            file: Bytes,
            file_len: usize,
            at: usize,
            bound: u32,
            out: Out,
            out_len: usize,
        );
        pub fn schedule_reader(file: Bytes, file_len: usize, at: usize, out: Out, out_len: usize);
        pub fn read_pages(
            file: Bytes,
            file_len: usize,
            from: usize,
            n: usize,
            bytes: BytesMut,
            bytes_len: usize,
            out: Out,
            out_len: usize,
        );
        pub fn write_ka(
            bytes: BytesMut,
            bytes_len: usize,
            at: usize,
            k: u32,
            a: u32,
            out: Out,
            out_len: usize,
        );
        pub fn write_rq(bytes: BytesMut, bytes_len: usize, at: usize, page: u32, out: Out, out_len: usize);
        pub fn write_rr(
            bytes: BytesMut,
            bytes_len: usize,
            at: usize,
            page: u32,
            times: u16,
            out: Out,
            out_len: usize,
        );
        pub fn write_ev(
            bytes: BytesMut,
            bytes_len: usize,
            at: usize,
            t: u32,
            pages: Numbers,
            pages_len: usize,
            out: Out,
            out_len: usize,
        );
        pub fn write_pf(
            bytes: BytesMut,
            bytes_len: usize,
            at: usize,
            t: u32,
            page: u32,
            out: Out,
            out_len: usize,
        );
    }
}

/// 1, 2 or 0.
pub fn sizes_refusal(k: u32, a: u32) -> u32 {
    unsafe { c::sizes_refusal(k, a) }
}

/// A request of a policy that keeps its pages in a queue: refusal, k, a, requests, loads, evictions, count,
/// answer.
pub type QueueRequest = fn(&Record, u32, &mut [u32], &mut [u32], u32, &mut [u64]);

/// A preview of such a request: the same. The cache list is only looked at.
pub type QueuePreview = fn(&Record, u32, &[u32], &mut [u32], u32, &mut [u64]);

/// A policy over a whole trace: refusal, bundles, loads.
pub type OverTrace = fn(u32, u32, &[u32], &mut [u64]);

/// A request or a preview, declared and made safe. They differ in how the cache list is lent.
macro_rules! queue_call {
    ($call:ident, $lent:ty, $pointer:ty, $point:ident) => {
        pub fn $call(
            record: &Record,
            count: u32,
            cache: $lent,
            evicted: &mut [u32],
            page: u32,
            out: &mut [u64],
        ) {
            extern "C" {
                fn $call(
                    k: u32,
                    a: u32,
                    requests: u32,
                    loads: u32,
                    evictions: u32,
                    count: u32,
                    cache: $pointer,
                    cache_len: usize,
                    evicted: *mut u32,
                    evicted_len: usize,
                    page: u32,
                    out: *mut u64,
                    out_len: usize,
                );
            }
            let Record { k, a, requests, loads, evictions } = *record;
            let (places, room, fields) = (cache.len(), evicted.len(), out.len());
            let (cache, evicted, out) = (cache.$point(), evicted.as_mut_ptr(), out.as_mut_ptr());
            unsafe {
                $call(
                    k, a, requests, loads, evictions, count, cache, places, evicted, room, page, out, fields,
                )
            }
        }
    };
}

queue_call!(lru_request, &mut [u32], *mut u32, as_mut_ptr);
queue_call!(lru_preview, &[u32], *const u32, as_ptr);
queue_call!(fifo_request, &mut [u32], *mut u32, as_mut_ptr);
queue_call!(fifo_preview, &[u32], *const u32, as_ptr);

/// A policy over a trace, declared and made safe.
macro_rules! over_trace {
    ($call:ident) => {
        pub fn $call(k: u32, a: u32, trace: &[u32], out: &mut [u64]) {
            extern "C" {
                fn $call(k: u32, a: u32, trace: *const u32, trace_len: usize, out: *mut u64, out_len: usize);
            }
            unsafe { $call(k, a, trace.as_ptr(), trace.len(), out.as_mut_ptr(), out.len()) }
        }
    };
}

over_trace!(lru_over_trace);
over_trace!(fifo_over_trace);

/// A trace file turned into an edition in lent bytes: refusal, length.
pub type Conversion = fn(&[u8], &mut [u8], &mut [u64]);

/// A conversion, declared and made safe.
macro_rules! conversion {
    ($call:ident) => {
        pub fn $call(file: &[u8], bytes: &mut [u8], out: &mut [u64]) {
            extern "C" {
                fn $call(
                    file: *const u8,
                    file_len: usize,
                    bytes: *mut u8,
                    bytes_len: usize,
                    out: *mut u64,
                    out_len: usize,
                );
            }
            let (length, room, fields) = (file.len(), bytes.len(), out.len());
            unsafe { $call(file.as_ptr(), length, bytes.as_mut_ptr(), room, out.as_mut_ptr(), fields) }
        }
    };
}

conversion!(to_old);
conversion!(to_new);
conversion!(program_to_old);
conversion!(program_to_new);

/// Refusal, bundles, loads.
pub fn min_count(k: u32, a: u32, trace: &[u32], out: &mut [u64]) {
    unsafe { c::min_count(k, a, trace.as_ptr(), trace.len(), out.as_mut_ptr(), out.len()) }
}

/// Refusal, bundles, loads, length.
pub fn min_schedule(k: u32, a: u32, trace: &[u32], bytes: &mut [u8], out: &mut [u64]) {
    unsafe {
        c::min_schedule(
            k,
            a,
            trace.as_ptr(),
            trace.len(),
            bytes.as_mut_ptr(),
            bytes.len(),
            out.as_mut_ptr(),
            out.len(),
        )
    }
}

/// Refusal, k, a, requests, evictions, s, appends, joins, lifts, answer.
pub fn layers_request(
    record: &layers::Record,
    pages: &mut [u32],
    numbers: &mut [u32],
    page: u32,
    out: &mut [u64],
) {
    unsafe {
        c::layers_request(
            record.k,
            record.a,
            record.requests,
            record.evictions,
            record.s,
            record.appends,
            record.joins,
            record.lifts,
            pages.as_mut_ptr(),
            pages.len(),
            numbers.as_mut_ptr(),
            numbers.len(),
            page,
            out.as_mut_ptr(),
            out.len(),
        )
    }
}

/// Refusal, count.
pub fn layers_revealed(record: &layers::Record, pages: &[u32], numbers: &[u32], out: &mut [u64]) {
    unsafe {
        c::layers_revealed(
            record.k,
            record.a,
            record.requests,
            record.evictions,
            record.s,
            record.appends,
            record.joins,
            record.lifts,
            pages.as_ptr(),
            pages.len(),
            numbers.as_ptr(),
            numbers.len(),
            out.as_mut_ptr(),
            out.len(),
        )
    }
}

/// 0 and a refusal, 1 "yes", 2 "count differs", 3 and a layer at which the rule breaks.
pub fn layers_possible(
    record: &layers::Record,
    pages: &[u32],
    numbers: &[u32],
    set: &[u32],
    out: &mut [u64],
) {
    unsafe {
        c::layers_possible(
            record.k,
            record.a,
            record.requests,
            record.evictions,
            record.s,
            record.appends,
            record.joins,
            record.lifts,
            pages.as_ptr(),
            pages.len(),
            numbers.as_ptr(),
            numbers.len(),
            set.as_ptr(),
            set.len(),
            out.as_mut_ptr(),
            out.len(),
        )
    }
}

/// Refusal, bundles, s, revealed.
pub fn layers_over_trace(
    k: u32,
    a: u32,
    trace: &[u32],
    pages: &mut [u32],
    numbers: &mut [u32],
    out: &mut [u64],
) {
    unsafe {
        c::layers_over_trace(
            k,
            a,
            trace.as_ptr(),
            trace.len(),
            pages.as_mut_ptr(),
            pages.len(),
            numbers.as_mut_ptr(),
            numbers.len(),
            out.as_mut_ptr(),
            out.len(),
        )
    }
}

/// What every reader stores: 0 and a refusal; 1 at the end; 2, k, a, next; 3, page, times, next;
/// 4, t, n, from, next; 5, t, page, next.
pub fn read_ka(file: &[u8], out: &mut [u64]) {
    unsafe { c::read_ka(file.as_ptr(), file.len(), out.as_mut_ptr(), out.len()) }
}

pub fn read_trace(file: &[u8], at: usize, out: &mut [u64]) {
    unsafe { c::read_trace(file.as_ptr(), file.len(), at, out.as_mut_ptr(), out.len()) }
}

pub fn trace_reader(file: &[u8], at: usize, out: &mut [u64]) {
    unsafe { c::trace_reader(file.as_ptr(), file.len(), at, out.as_mut_ptr(), out.len()) }
}

/// Refusal, k, a, requests.
pub fn trace_count(file: &[u8], most: usize, out: &mut [u64]) {
    unsafe { c::trace_count(file.as_ptr(), file.len(), most, out.as_mut_ptr(), out.len()) }
}

/// Refusal, k, a, requests.
pub fn trace_fill(file: &[u8], pages: &mut [u32], out: &mut [u64]) {
    unsafe {
        c::trace_fill(file.as_ptr(), file.len(), pages.as_mut_ptr(), pages.len(), out.as_mut_ptr(), out.len())
    }
}

pub fn read_schedule(file: &[u8], at: usize, out: &mut [u64]) {
    unsafe { c::read_schedule(file.as_ptr(), file.len(), at, out.as_mut_ptr(), out.len()) }
}

pub fn read_schedule_within(file: &[u8], at: usize, bound: u32, out: &mut [u64]) {
    unsafe { c::read_schedule_within(file.as_ptr(), file.len(), at, bound, out.as_mut_ptr(), out.len()) }
}

pub fn schedule_reader(file: &[u8], at: usize, out: &mut [u64]) {
    unsafe { c::schedule_reader(file.as_ptr(), file.len(), at, out.as_mut_ptr(), out.len()) }
}

/// The part's length; its bytes go into the lent ones, as many as there is room for.
pub fn read_pages(file: &[u8], from: usize, n: usize, bytes: &mut [u8], out: &mut [u64]) {
    unsafe {
        c::read_pages(
            file.as_ptr(),
            file.len(),
            from,
            n,
            bytes.as_mut_ptr(),
            bytes.len(),
            out.as_mut_ptr(),
            out.len(),
        )
    }
}

/// What every writer stores: refusal, the offset behind the record.
pub fn write_ka(bytes: &mut [u8], at: usize, k: u32, a: u32, out: &mut [u64]) {
    unsafe { c::write_ka(bytes.as_mut_ptr(), bytes.len(), at, k, a, out.as_mut_ptr(), out.len()) }
}

pub fn write_rq(bytes: &mut [u8], at: usize, page: u32, out: &mut [u64]) {
    unsafe { c::write_rq(bytes.as_mut_ptr(), bytes.len(), at, page, out.as_mut_ptr(), out.len()) }
}

pub fn write_rr(bytes: &mut [u8], at: usize, page: u32, times: u16, out: &mut [u64]) {
    unsafe { c::write_rr(bytes.as_mut_ptr(), bytes.len(), at, page, times, out.as_mut_ptr(), out.len()) }
}

pub fn write_ev(bytes: &mut [u8], at: usize, t: u32, pages: &[u32], out: &mut [u64]) {
    unsafe {
        c::write_ev(
            bytes.as_mut_ptr(),
            bytes.len(),
            at,
            t,
            pages.as_ptr(),
            pages.len(),
            out.as_mut_ptr(),
            out.len(),
        )
    }
}

pub fn write_pf(bytes: &mut [u8], at: usize, t: u32, page: u32, out: &mut [u64]) {
    unsafe { c::write_pf(bytes.as_mut_ptr(), bytes.len(), at, t, page, out.as_mut_ptr(), out.len()) }
}
