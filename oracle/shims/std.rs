//! Stands in for `std` in the original: the clock is the reading, and no thread is started.

pub use ::std::*;

pub mod time {
    use ::std::cell::Cell;
    pub use ::std::time::Duration;

    thread_local! {
        static READING: Cell<u64> = const { Cell::new(0) };
        static COUNTS_NANOSECONDS: Cell<bool> = const { Cell::new(false) };
    }

    /// Sets what the clock shows, in its ticks.
    pub fn set_reading(reading: u64) {
        READING.set(reading);
    }

    /// Sets whether a tick is a nanosecond; if not, it is a millisecond.
    pub fn set_nanoseconds(counts: bool) {
        COUNTS_NANOSECONDS.set(counts);
    }

    #[derive(Clone, Copy, Debug, PartialEq, Eq, PartialOrd, Ord)]
    pub struct Instant(u64);

    impl Instant {
        pub fn now() -> Self {
            Instant(READING.get())
        }

        #[inline]
        pub fn elapsed(&self) -> Duration {
            Instant::now().duration_since(*self)
        }

        /// Drawn into the calls that ask, so that the original is timed without a detour.
        #[inline]
        pub fn duration_since(&self, earlier: Instant) -> Duration {
            let ticks = self.0.saturating_sub(earlier.0);
            // Ages alone become durations, so that no reading is too late for one.
            match COUNTS_NANOSECONDS.get() {
                true => Duration::from_nanos(ticks),
                false => Duration::from_millis(ticks),
            }
        }

        /// The moment of a reading, for states that the judge puts in.
        pub fn at(reading: u64) -> Self {
            Instant(reading)
        }

        /// The reading this moment stands for.
        pub fn reading(&self) -> u64 {
            self.0
        }
    }
}

pub mod thread {
    use super::time::Duration;

    /// The cleanup loop is left out: the judge calls cleanup itself.
    pub fn spawn<F: FnOnce() + 'static>(_loop_body: F) {
        unreachable!("the judge starts no cleanup loop");
    }

    pub fn sleep(_time: Duration) {}
}
