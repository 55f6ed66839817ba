// The processor time of this thread: what else the machine does meanwhile is not in it.
//     Clock       started, and how long ago by that time

use std::time::Duration;

// of <time.h>, on 64-bit Linux
#[repr(C)]
struct Timespec {
    seconds: i64,
    nanoseconds: i64,
}

const CLOCK_THREAD_CPUTIME_ID: i32 = 3;

extern "C" {
    fn clock_gettime(clock: i32, time: *mut Timespec) -> i32;
}

fn now() -> Duration {
    let mut time = Timespec { seconds: 0, nanoseconds: 0 };
    // the pointer is that of a `timespec` that lives through the call
    let status = unsafe { clock_gettime(CLOCK_THREAD_CPUTIME_ID, &mut time) };
    assert!(status == 0, "no clock of the thread's processor time");
    Duration::new(time.seconds as u64, time.nanoseconds as u32)
}

pub struct Clock(Duration);

impl Clock {
    pub fn start() -> Self {
        Clock(now())
    }

    pub fn passed(&self) -> Duration {
        now() - self.0
    }
}

#[cfg(test)]
mod tests {
    use super::*;

    // a thread that waits takes no processor time
    #[test]
    fn waiting_is_not_counted() {
        let clock = Clock::start();
        std::thread::sleep(Duration::from_millis(50));
        assert!(clock.passed() < Duration::from_millis(25));
    }
}
