//! Processor time of the processes that this one has waited for.

use std::time::Duration;

/// C's `struct timeval` and `struct rusage` of 64-bit Linux.
#[repr(C)]
#[derive(Clone, Copy, Default)]
struct Time {
    seconds: i64,
    micros: i64,
}

#[repr(C)]
#[derive(Default)]
struct Usage {
    user: Time,
    system: Time,
    rest: [i64; 14],
}

const CHILDREN: i32 = -1;

extern "C" {
    fn getrusage(who: i32, usage: *mut Usage) -> i32;
}

fn total() -> Duration {
    let mut usage = Usage::default();
    // SAFETY: the function fills the record that it is lent.
    assert_eq!(unsafe { getrusage(CHILDREN, &mut usage) }, 0);
    let one = |time: Time| Duration::from_micros((time.seconds * 1_000_000 + time.micros) as u64);
    one(usage.user) + one(usage.system)
}

/// What a process spends in itself and in the system for it, so that other programs on the machine
/// do not count. The work runs the process and waits for it.
pub fn spent(work: impl FnOnce()) -> Duration {
    let before = total();
    work();
    total() - before
}
