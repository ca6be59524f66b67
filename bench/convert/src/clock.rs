//! How long a thread or the process has run: while it waits for a core that others have, these clocks stand.

use std::time::Duration;

#[derive(Clone, Copy)]
pub enum Clock {
    Process,
    Thread,
}

impl Clock {
    pub fn now(self) -> Duration {
        unsafe extern "C" {
            fn clock_gettime(clock: i32, time: *mut [i64; 2]) -> i32;
        }
        // Linux's numbers.
        let number = match self {
            Clock::Process => 2,
            Clock::Thread => 3,
        };
        let mut time = [0; 2];
        // SAFETY: it writes two words, seconds and nanoseconds, which are lent to it, and keeps nothing.
        unsafe { clock_gettime(number, &mut time) };
        Duration::new(time[0] as u64, time[1] as u32)
    }
}
