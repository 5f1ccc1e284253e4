//! Taking the time of one run, as the processor's time of this process, which other programs on the machine disturb least.

/// The clock of the processor's time of this process, by the C library's number.
const PROCESS: i32 = 2;

/// The seconds after which no further run is begun, even where only one was timed.
const LONGEST: f64 = 10.0;

/// The seconds that a bundle of runs takes at least: the clock can stand still for some 10 µs, and that is then little.
const BUNDLE: f64 = 0.002;

#[repr(C)]
struct Time {
    seconds: i64,
    nanoseconds: i64,
}

extern "C" {
    fn clock_gettime(clock: i32, time: *mut Time) -> i32;
}

/// The seconds of processor's time that this process has used.
fn now() -> f64 {
    let mut time = Time {
        seconds: 0,
        nanoseconds: 0,
    };
    // SAFETY: the C library writes one `struct timespec`, which `Time` is on x86-64.
    unsafe { clock_gettime(PROCESS, &mut time) };
    time.seconds as f64 + time.nanoseconds as f64 / 1e9
}

/// What was timed of one run: how many make a bundle, how many bundles were timed, and the seconds of one run in the quickest of them.
struct Timing {
    runs: u32,
    bundles: u32,
    least: f64,
}

impl Timing {
    fn new() -> Timing {
        Timing {
            runs: 1,
            bundles: 0,
            least: f64::INFINITY,
        }
    }

    /// Times one bundle more; one that is too short counts for nothing, and the next is twice as long.
    fn bundle(&mut self, run: &mut impl FnMut()) {
        let mut spent = self.spent(run);
        while spent < BUNDLE {
            self.runs *= 2;
            spent = self.spent(run);
        }
        self.bundles += 1;
        self.least = self.least.min(spent / f64::from(self.runs));
    }

    /// The seconds that the runs of a bundle take.
    fn spent(&self, run: &mut impl FnMut()) -> f64 {
        let began = now();
        (0..self.runs).for_each(|_| run());
        now() - began
    }

    /// Whether so many seconds are enough: two bundles have to be timed, unless the first alone is very long.
    fn suffices(&self, spent: f64, seconds: f64) -> bool {
        spent >= if self.bundles < 2 { LONGEST } else { seconds }
    }

    fn micros(&self) -> f64 {
        self.least * 1e6
    }
}

/// The microseconds of one run in the quickest of several bundles: as many as the seconds allow.
pub fn quickest(seconds: f64, mut run: impl FnMut()) -> f64 {
    let (start, mut timing) = (now(), Timing::new());
    while !timing.suffices(now() - start, seconds) {
        timing.bundle(&mut run);
    }
    timing.micros()
}

/// The same of two runs that are timed in turns, each for about so many seconds.
pub fn in_turns(seconds: f64, mut one: impl FnMut(), mut other: impl FnMut()) -> (f64, f64) {
    let (start, mut first, mut second) = (now(), Timing::new(), Timing::new());
    while !second.suffices(now() - start, 2.0 * seconds) {
        first.bundle(&mut one);
        second.bundle(&mut other);
    }
    (first.micros(), second.micros())
}
