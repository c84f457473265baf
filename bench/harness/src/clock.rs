//! Processor time, which other work at the same time disturbs less than wall
//! time.

use std::time::Duration;

mod declared {
    #[repr(C)]
    #[derive(Default)]
    pub struct Timeval {
        pub seconds: i64,
        pub microseconds: i64,
    }

    /// As Linux has it on 64 bits; what follows the times is not used.
    #[repr(C)]
    #[derive(Default)]
    pub struct Rusage {
        pub user: Timeval,
        pub system: Timeval,
        pub others: [i64; 14],
    }

    extern "C" {
        pub fn getrusage(who: i32, usage: *mut Rusage) -> i32;
    }
}

/// Whose time it is: that of this process, or of all its children that it
/// waited for.
#[derive(Clone, Copy)]
pub enum Of {
    Itself = 0,
    Children = -1,
}

fn so_far(of: Of) -> Duration {
    let mut usage = declared::Rusage::default();
    // SAFETY: the pointer is to a value of the declared layout.
    let status = unsafe { declared::getrusage(of as i32, &mut usage) };
    assert_eq!(status, 0, "every process has these times");
    let duration = |time: &declared::Timeval| {
        Duration::new(time.seconds as u64, 1_000 * time.microseconds as u32)
    };
    duration(&usage.user) + duration(&usage.system)
}

/// The time of a run, and what it gives, which is not dropped within it.
pub fn timed<T>(of: Of, run: impl FnOnce() -> T) -> (Duration, T) {
    let start = so_far(of);
    let result = std::hint::black_box(run());
    (so_far(of) - start, result)
}
