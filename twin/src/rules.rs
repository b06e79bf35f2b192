//! The rules on plain values: settings, the ring that suffices, limits, the fresh factor, the draw.

/// The top of a key's total, and the number of draws.
pub const TOP: u64 = 1 << 53;

/// The least rate per second, 2^-900.
pub const LEAST_RATE: f64 = f64::from_bits((1023 - 900) << 52);

/// Why a call is turned away, by number.
#[derive(Clone, Copy, Debug, PartialEq, Eq)]
pub struct Refusal(pub u64);

/// Refuses with `number` where `met` holds.
pub fn refuse_if(met: bool, number: u64) -> Result<(), Refusal> {
    if met { Err(Refusal(number)) } else { Ok(()) }
}

/// Which of the two limiters a room belongs to.
#[derive(Clone, Copy, Debug, PartialEq, Eq)]
pub enum Kind {
    Absolute,
    Suppressed,
}

/// What a tick is. Readings, bucket times and the cached factor's time are in ticks.
#[derive(Clone, Copy, Debug, Default, PartialEq, Eq)]
pub enum ClockMode {
    #[default]
    Milliseconds,
    Nanoseconds,
}

impl ClockMode {
    /// n, the number of ticks in a millisecond.
    pub fn ticks(self) -> u64 {
        match self {
            ClockMode::Milliseconds => 1,
            ClockMode::Nanoseconds => 1_000_000,
        }
    }

    /// An age cut to whole milliseconds.
    pub fn whole(self, age: u64) -> u64 {
        age / self.ticks()
    }

    /// So many milliseconds, in ticks: a cut age is below them exactly where the age is.
    pub fn exactly(self, ms: u64) -> u64 {
        ms * self.ticks()
    }

    /// The greatest age that is so many milliseconds once it is cut: to compare with it spares the division.
    pub fn at_most(self, ms: u64) -> u64 {
        self.exactly(ms) + (self.ticks() - 1)
    }
}

/// W, b, C, F and the clock mode.
#[derive(Clone, Copy, Debug, PartialEq)]
pub struct Settings {
    /// W, whole seconds.
    pub window: u64,
    /// b, milliseconds.
    pub bucket: u64,
    /// C, milliseconds.
    pub cache: u64,
    /// F.
    pub factor: f64,
    pub clock: ClockMode,
}

impl Default for Settings {
    /// The window is ticket 5's, of 30 s where the original has 10; the others are the original's.
    fn default() -> Self {
        Settings { window: 30, bucket: 100, cache: 100, factor: 1.0, clock: ClockMode::default() }
    }
}

impl Settings {
    /// Refusals 1 to 4.
    pub fn judge(&self) -> Result<(), Refusal> {
        refuse_if(!(1..=33_554_432).contains(&self.window), 1)?;
        refuse_if(!(1..=4_294_967_296).contains(&self.bucket), 2)?;
        refuse_if(!(1..=4_294_967_296).contains(&self.cache), 3)?;
        refuse_if(!(self.factor.is_finite() && self.factor >= 1.0), 4)
    }

    /// 1000 W, in milliseconds.
    pub fn window_ms(&self) -> u64 {
        1000 * self.window
    }

    /// So many buckets in a ring, and from an empty room no call meets 12 while readings do not fall; with one less, zero counts meet it.
    /// Buckets stand b + 1 ms apart or more in either clock mode, since a join cuts the age. It may be more than a ring can have.
    pub fn sufficient_ring(&self) -> Result<u64, Refusal> {
        self.judge()?;
        Ok(self.window_ms() / (self.bucket + 1) + 1)
    }

    /// The greatest age of a live bucket. A bucket is expired when its age, to the tick, is over 1000 W ms.
    pub fn longest_live(&self) -> u64 {
        self.clock.exactly(self.window_ms())
    }

    /// Whether the oldest bucket at this age makes a call evict that looks at it first: ages are cut there.
    pub fn looks_expired(&self, age: u64) -> bool {
        age > self.clock.at_most(self.window_ms())
    }

    /// An increment joins the newest bucket at a cut age of at most b.
    pub fn joins(&self, age: u64) -> bool {
        age <= self.clock.at_most(self.bucket)
    }

    /// A cached factor is used at a cut age below C.
    pub fn uses_cached(&self, age: u64) -> bool {
        age < self.clock.exactly(self.cache)
    }

    /// The greatest age in the last second, where ages are cut.
    pub fn longest_in_last_second(&self) -> u64 {
        self.clock.at_most(1000)
    }

    /// The limit that a series stores: rate * W, or rate * F * W in that order.
    pub fn limit(&self, kind: Kind, rate: f64) -> f64 {
        match kind {
            Kind::Absolute => rate * self.window as f64,
            Kind::Suppressed => rate * self.factor * self.window as f64,
        }
    }

    /// F in the suppressed room, 1 in the absolute one.
    pub fn divisor(&self, kind: Kind) -> f64 {
        match kind {
            Kind::Absolute => 1.0,
            Kind::Suppressed => self.factor,
        }
    }

    /// A stored limit is sound if it divided by W and F is positive.
    pub fn is_limit(&self, kind: Kind, limit: f64) -> bool {
        limit / self.window as f64 / self.divisor(kind) > 0.0
    }

    /// The rate that a stored limit stands for.
    pub fn rate_of(&self, kind: Kind, limit: f64) -> f64 {
        if limit == f64::MAX || limit == f64::INFINITY {
            return f64::MAX;
        }
        limit / self.window as f64 / self.divisor(kind)
    }

    /// S, the soft limit.
    pub fn soft(&self, hard: f64) -> u64 {
        cut(hard / self.factor)
    }
}

/// Refusal 8.
pub fn judge_rate(rate: f64) -> Result<(), Refusal> {
    refuse_if(!(rate.is_finite() && rate >= LEAST_RATE), 8)
}

/// Cutting a limit drops the fraction and saturates.
pub fn cut(limit: f64) -> u64 {
    limit as u64
}

/// What a series stands at once its expired buckets are out.
#[derive(Clone, Copy, Debug)]
pub struct Standing {
    /// The stored hard limit.
    pub hard: f64,
    pub total: u64,
    pub declined: u64,
    /// How many buckets are left.
    pub buckets: u64,
    /// The cached factor, if its age is below C and nothing expired.
    pub cached: Option<f64>,
}

impl Standing {
    /// Total less declined.
    pub fn accepted(&self) -> u64 {
        self.total - self.declined
    }

    /// The fresh factor. The last second is asked for where the factor depends on it.
    fn fresh_factor(&self, settings: &Settings, last_second: impl FnOnce() -> u64) -> f64 {
        let hard = cut(self.hard);
        let soft = settings.soft(self.hard);
        if self.buckets == 0 {
            return 0.0;
        }
        if self.total >= hard {
            return 1.0;
        }
        if self.accepted() < soft {
            return 0.0;
        }
        // Not reached, since a total of H or more has given 1; kept as 01 has it.
        if self.accepted() == soft && soft == hard {
            return 1.0;
        }
        let window = settings.window as f64;
        let perceived = (self.total as f64 / window).max(last_second() as f64);
        // Calls that counted nothing leave no rate to hold back, and 0 / 0 is no number.
        if perceived == 0.0 {
            return 0.0;
        }
        1.0 - soft as f64 / window / perceived
    }

    /// The cached factor where it may be used, else a fresh one that is to be cached.
    pub fn factor(&self, settings: &Settings, last_second: impl FnOnce() -> u64) -> Worked {
        match self.cached {
            Some(factor) => Worked { factor, to_cache: None },
            None => {
                let factor = self.fresh_factor(settings, last_second);
                Worked { factor, to_cache: Some(factor) }
            }
        }
    }
}

/// A factor, and what is to be cached of it.
#[derive(Clone, Copy, Debug)]
pub struct Worked {
    pub factor: f64,
    pub to_cache: Option<f64>,
}

/// Factor 0 admits, 1 does not; otherwise draw < (1 - factor) * 2^53.
pub fn admits(factor: f64, draw: u64) -> bool {
    if factor == 0.0 {
        return true;
    }
    if factor == 1.0 {
        return false;
    }
    (draw as f64) < (1.0 - factor) * TOP as f64
}

/// What `inc` and `is_allowed` decide.
#[derive(Clone, Copy, Debug, PartialEq)]
pub enum Decision {
    Allowed,
    /// `wait`: 1000 W less the oldest bucket's age; `left`: that bucket's count.
    Rejected {
        window: u64,
        wait: u64,
        left: u64,
    },
    Suppressed {
        factor: f64,
        admitted: bool,
    },
}

/// A set's guard on the live total.
#[derive(Clone, Copy, Debug, PartialEq, Eq)]
pub enum Comparator {
    Eq(u64),
    Lt(u64),
    Gt(u64),
    Ne(u64),
    Always,
}

impl Comparator {
    pub fn matches(self, total: u64) -> bool {
        match self {
            Comparator::Eq(operand) => total == operand,
            Comparator::Lt(operand) => total < operand,
            Comparator::Gt(operand) => total > operand,
            Comparator::Ne(operand) => total != operand,
            Comparator::Always => true,
        }
    }
}

/// What a set does with the history.
#[derive(Clone, Copy, Debug, PartialEq, Eq)]
pub enum Mode {
    Replace,
    PreserveNewest,
    PreserveOldest,
}

/// What a set gives back.
#[derive(Clone, Copy, Debug, PartialEq, Eq)]
pub struct SetOutcome {
    pub matched: bool,
    pub previous: u64,
    pub current: u64,
}

/// floor(declined * retained / count), with the product in 128 bits.
pub fn declined_share(declined: u64, retained: u64, count: u64) -> u64 {
    (u128::from(declined) * u128::from(retained) / u128::from(count)) as u64
}
