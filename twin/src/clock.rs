//! User time of this process.

use std::time::Duration;

#[repr(C)]
#[derive(Default)]
struct Usage {
    user_seconds: i64,
    user_microseconds: i64,
    rest: [i64; 16],
}

extern "C" {
    fn getrusage(who: i32, usage: *mut Usage) -> i32;
}

/// The user time that the process has taken.
pub fn user_time() -> Duration {
    let mut usage = Usage::default();
    // The call fills the structure, which is laid out as C has it on 64-bit Linux; who = 0 is the
    // process.
    unsafe { getrusage(0, &mut usage) };
    Duration::from_secs(usage.user_seconds as u64) + Duration::from_micros(usage.user_microseconds as u64)
}
