//! The judge. Its answer is the cost, or the refusal's number made negative.

mod c {
    #[link(name = "judge", kind = "static")]
    extern "C" {
        pub fn judge(trace: *const u8, trace_len: usize, schedule: *const u8, schedule_len: usize) -> i64;
    }
}

/// The cost of a schedule's file for a trace's file.
pub fn judge(trace: &[u8], schedule: &[u8]) -> i64 {
    unsafe { c::judge(trace.as_ptr(), trace.len(), schedule.as_ptr(), schedule.len()) }
}
