//! Times of the two sides, taken in turn in one run. What is measured is the processor's time, so that other work on the machine
//! counts little.

use std::fmt;
use std::hint::black_box;
use std::time::Duration;

/// The clock of Linux that counts the processor's time of this thread.
const THREAD_CLOCK: i32 = 3;

#[repr(C)]
struct Timespec {
    seconds: i64,
    nanoseconds: i64,
}

extern "C" {
    fn clock_gettime(clock: i32, time: *mut Timespec) -> i32;
}

/// The processor's time that this thread has had.
fn now() -> Duration {
    let mut time = Timespec {
        seconds: 0,
        nanoseconds: 0,
    };
    // SAFETY: the function fills the struct that it is lent.
    let answer = unsafe { clock_gettime(THREAD_CLOCK, &mut time) };
    assert_eq!(answer, 0, "there is no clock");
    Duration::new(time.seconds as u64, time.nanoseconds as u32)
}

/// A round repeats a call for about so long.
const ROUND: Duration = Duration::from_millis(4);
/// How many rounds each side has in a sweep.
const ROUNDS: u32 = 12;
/// A call that takes longer than this is made once a sweep.
const LONG: Duration = Duration::from_millis(100);
/// A call that takes longer than this is made once in all.
const ONCE: Duration = Duration::from_secs(2);

/// The time of one call of each side.
#[derive(Clone, Copy)]
pub struct Times {
    pub ours: Duration,
    pub rust: Duration,
}

/// Makes a call, and says how long it took.
pub fn once<R>(call: impl FnOnce() -> R) -> (R, Duration) {
    let began = now();
    let answer = black_box(call());
    (answer, now() - began)
}

/// Rounds, and calls in each, for a call that took so long when it was first made.
fn plan(first: Duration) -> (u32, u32) {
    if first > ONCE {
        return (0, 1);
    }
    if first > LONG {
        return (1, 1);
    }
    let calls = ROUND.as_nanos() / first.as_nanos().max(1) + 1;
    (ROUNDS, calls as u32)
}

/// The mean time of so many calls.
fn round(call: &mut impl FnMut() -> u32, calls: u32) -> Duration {
    let began = now();
    for _ in 0..calls {
        black_box(call());
    }
    (now() - began) / calls
}

impl Times {
    /// The best of several rounds of each side, the sides in turn.
    pub fn refined(self, mut ours: impl FnMut() -> u32, mut rust: impl FnMut() -> u32) -> Times {
        let (our_rounds, our_calls) = plan(self.ours);
        let (rust_rounds, rust_calls) = plan(self.rust);
        let mut best = self;
        for i in 0..our_rounds.max(rust_rounds) {
            if i < our_rounds {
                best.ours = best.ours.min(round(&mut ours, our_calls));
            }
            if i < rust_rounds {
                best.rust = best.rust.min(round(&mut rust, rust_calls));
            }
        }
        best
    }

    pub fn ratio(&self) -> f64 {
        self.ours.as_secs_f64() / self.rust.as_secs_f64()
    }
}

/// Three digits, in µs, ms or s.
fn shown(time: Duration) -> String {
    let us = time.as_secs_f64() * 1e6;
    let (x, unit) = match us {
        us if us < 1e3 => (us, "µs"),
        us if us < 1e6 => (us / 1e3, "ms"),
        us => (us / 1e6, "s"),
    };
    let digits = if x < 10.0 {
        2
    } else if x < 100.0 {
        1
    } else {
        0
    };
    format!("{x:.digits$} {unit}")
}

impl fmt::Display for Times {
    fn fmt(&self, f: &mut fmt::Formatter) -> fmt::Result {
        write!(
            f,
            "{} | {} | {:.2}",
            shown(self.ours),
            shown(self.rust),
            self.ratio()
        )
    }
}
