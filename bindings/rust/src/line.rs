//! Lines that the program `desk` prints, read back and printed.
use crate::answer::{Decision, UNKNOWN_CASE};
use crate::faces::{self, LineRow};
use crate::refusal::Refusal;
use std::fmt;
use std::str::FromStr;
use std::time::Duration;

/// A line that the program `desk` prints, without its newline: a reading, and what the call at it was told. Reading and
/// printing undo each other:
///
/// ```
/// use frostaxle::{Line, Refusal, Told, Totals};
///
/// let text = "t=1700 code=0 answer=no factor=3fe0000000000000 wait=0 left=0 total=15 declined=5";
/// let line = Line::parse(text)?;
/// assert_eq!(line.reading(), 1_700);
/// let totals = Totals { total: 15, declined: 5 };
/// assert_eq!(line.told(), Told::Suppressed { suppression_factor: 0.5, is_allowed: false, totals });
/// assert_eq!(line.to_string(), text);
/// // the same of its parts, as `desk` would print it
/// assert_eq!(Line::new(1_700, line.told()), Ok(line));
/// // one space too many: no line of `desk`
/// assert_eq!(Line::parse(format!("{text} ")), Err(Refusal::NoCall));
/// # Ok::<(), Refusal>(())
/// ```
///
/// A panel that shows what `desk` prints cuts it at newlines alone, since [`str::lines`] would hide a carriage return:
///
/// ```
/// use frostaxle::{Line, Refusal, Told};
///
/// let printed = "\
/// t=2000 code=0 answer=allowed factor=0000000000000000 wait=0 left=0 total=10 declined=0
/// t=3000 code=0 answer=rejected factor=0000000000000000 wait=7000 left=6 total=10 declined=0
/// t=2999 code=6 answer=refused factor=0000000000000000 wait=0 left=0 total=0 declined=0
/// ";
/// let lines = printed.split_terminator('\n').map(str::parse).collect::<Result<Vec<Line>, Refusal>>()?;
/// let shown: Vec<String> = lines
///     .iter()
///     .map(|line| match line.told() {
///         Told::Rejected { wait, .. } => format!("{}: no, wait {} ms", line.reading(), wait.as_millis()),
///         Told::Refused(refusal) => format!("{}: {refusal}", line.reading()),
///         _ => format!("{}: {} counted", line.reading(), line.told().totals().total),
///     })
///     .collect();
/// assert_eq!(shown, [
///     "2000: 10 counted",
///     "3000: no, wait 7000 ms",
///     "2999: the reading is below that of an earlier call (refusal 6)",
/// ]);
/// # Ok::<(), Refusal>(())
/// ```
#[derive(Clone, Copy, Debug, PartialEq)]
pub struct Line {
    reading: u64,
    told: Told,
}

/// What a [`Line`] tells, by its `answer`.
#[derive(Clone, Copy, Debug, PartialEq)]
#[non_exhaustive]
pub enum Told {
    /// `allowed`.
    Allowed { totals: Totals },
    /// `rejected`: how long to wait, in whole milliseconds, and what the oldest bucket holds. The window is in no line.
    Rejected { wait: Duration, left: u64, totals: Totals },
    /// `yes` or `no`, by the factor, 0 to 1, and the draw.
    Suppressed { suppression_factor: f64, is_allowed: bool, totals: Totals },
    /// `value`: what a get gave. The line does not tell of which limiter; the absolute one's factor is 0.
    Value { suppression_factor: f64, totals: Totals },
    /// `refused`, with a number of 1 to 14. 1 to 4 and 14 are told of lines without a reading, so theirs is 0; 14 tells
    /// that what `desk` was given is no settings line, or no call. 13, which no call gives any more, is
    /// [`Refusal::Other`]`(13)`.
    Refused(Refusal),
}

/// A key's totals after the call: at most 2^53, and no more declined than counted.
#[derive(Clone, Copy, Debug, Default, PartialEq, Eq, Hash)]
pub struct Totals {
    pub total: u64,
    pub declined: u64,
}

impl Line {
    /// Reads a line, which stands here without its newline. [`Refusal::NoCall`] for any that `desk` does not print,
    /// whatever its bytes are.
    pub fn parse(line: impl AsRef<[u8]>) -> Result<Line, Refusal> {
        let bytes = line.as_ref();
        let mut row: LineRow = [0; 7];
        // SAFETY: the face is proved to read only within the lent length, for any bytes. Pointer and length are of a
        // live slice; `row` is lent mutably, so nothing overlaps it.
        unsafe { faces::frostaxle_read_line(bytes.as_ptr(), bytes.len(), &mut row) };
        Line::of_row(row)
    }

    /// The line that tells this at this reading, in milliseconds. [`Refusal::NoCall`] where none does: totals or a
    /// factor out of range, a wait that is not whole milliseconds or has 2^64 of them or more, a refusal that has no
    /// number of 1 to 14 or is not by its name, and 1 to 4 and 14 at a reading other than 0.
    ///
    /// ```
    /// use frostaxle::{Line, Refusal, Told, Totals};
    ///
    /// let totals = Totals { total: 6, declined: 0 };
    /// assert_eq!(
    ///     Line::new(0, Told::Allowed { totals })?.to_string(),
    ///     "t=0 code=0 answer=allowed factor=0000000000000000 wait=0 left=0 total=6 declined=0"
    /// );
    /// let totals = Totals { total: 6, declined: 7 };
    /// assert_eq!(Line::new(0, Told::Allowed { totals }), Err(Refusal::NoCall));
    /// # Ok::<(), Refusal>(())
    /// ```
    pub fn new(reading: u64, told: Told) -> Result<Line, Refusal> {
        let line = Line { reading, told };
        // the proved reader decides: what it does not give back is in no line
        match Line::parse(line.to_string())? {
            read if read == line => Ok(line),
            _ => Err(Refusal::NoCall),
        }
    }

    /// The reading of the call, in milliseconds.
    pub fn reading(self) -> u64 {
        self.reading
    }

    /// What the call was told.
    pub fn told(self) -> Told {
        self.told
    }

    /// The decision, if the line has one: values and refusals are none. A rejection's window is in no line, so name it.
    pub fn decision(self, window_size: Duration) -> Option<Decision> {
        match self.told {
            Told::Allowed { .. } => Some(Decision::Allowed),
            Told::Rejected { wait, left, .. } => {
                Some(Decision::Rejected { window_size, retry_after: wait, remaining_after_waiting: left })
            }
            Told::Suppressed { suppression_factor, is_allowed, .. } => {
                Some(Decision::Suppressed { suppression_factor, is_allowed })
            }
            Told::Value { .. } | Told::Refused(_) => None,
        }
    }

    fn of_row(row: LineRow) -> Result<Line, Refusal> {
        let [number, case, reading, x, y, total, declined] = row;
        if number != 0 {
            return Err(Refusal::of(number));
        }
        let totals = Totals { total, declined };
        let told = match case {
            1 => Told::Allowed { totals },
            2 => Told::Rejected { wait: Duration::from_millis(x), left: y, totals },
            3 => Told::Suppressed { suppression_factor: f64::from_bits(x), is_allowed: y == 1, totals },
            5 => Told::Value { suppression_factor: f64::from_bits(x), totals },
            6 => Told::Refused(Refusal::of(x)),
            _ => return Err(UNKNOWN_CASE),
        };
        Ok(Line { reading, told })
    }
}

impl Told {
    /// The totals that it has, zeros for a refusal.
    pub fn totals(self) -> Totals {
        self.fields().totals
    }

    fn fields(self) -> Fields {
        match self {
            Told::Allowed { totals } => Fields::of("allowed", totals),
            Told::Rejected { wait, left, totals } => {
                Fields { wait: wait.as_millis(), left, ..Fields::of("rejected", totals) }
            }
            Told::Suppressed { suppression_factor, is_allowed, totals } => {
                let answer = if is_allowed { "yes" } else { "no" };
                Fields { suppression_factor, ..Fields::of(answer, totals) }
            }
            Told::Value { suppression_factor, totals } => Fields { suppression_factor, ..Fields::of("value", totals) },
            Told::Refused(refusal) => Fields { code: refusal.number(), ..Fields::of("refused", Totals::default()) },
        }
    }
}

/// A line's fields behind its reading. The wait is wide enough for any, so that one that is too long is not cut.
struct Fields {
    code: u64,
    answer: &'static str,
    suppression_factor: f64,
    wait: u128,
    left: u64,
    totals: Totals,
}

impl Fields {
    /// With zeros where a field does not apply.
    fn of(answer: &'static str, totals: Totals) -> Fields {
        Fields { code: 0, answer, suppression_factor: 0.0, wait: 0, left: 0, totals }
    }
}

/// Prints what `desk` does, without a newline.
impl fmt::Display for Line {
    fn fmt(&self, f: &mut fmt::Formatter<'_>) -> fmt::Result {
        let Fields { code, answer, suppression_factor, wait, left, totals } = self.told.fields();
        let Totals { total, declined } = totals;
        write!(f, "t={} code={code} answer={answer} factor={:016x}", self.reading, suppression_factor.to_bits())?;
        write!(f, " wait={wait} left={left} total={total} declined={declined}")
    }
}

impl FromStr for Line {
    type Err = Refusal;

    fn from_str(line: &str) -> Result<Line, Refusal> {
        Line::parse(line)
    }
}
