//! Lines that `desk` prints, read back and printed through the archive.
use frostaxle::{Absolute, Decision, Line, Refusal, Room, Settings, Suppressed, Told, Totals};
use std::time::Duration;

const TOP: u64 = 1 << 53;

const NUMBERS: [u64; 8] = [0, 1, 9, 10, 1_700, TOP, u64::MAX - 1, u64::MAX];

/// The least double, and the last before 1, among them.
const FACTORS: [f64; 6] = [0.0, 5e-324, f64::MIN_POSITIVE, 0.5, 1.0 - f64::EPSILON / 2.0, 1.0];

const TOTALS: [Totals; 7] =
    [totals(0, 0), totals(1, 0), totals(1, 1), totals(15, 5), totals(TOP, 0), totals(TOP, TOP - 1), totals(TOP, TOP)];

const fn totals(total: u64, declined: u64) -> Totals {
    Totals { total, declined }
}

const fn rejected(wait: u64, left: u64, totals: Totals) -> Told {
    Told::Rejected { wait: Duration::from_millis(wait), left, totals }
}

const fn suppressed(suppression_factor: f64, is_allowed: bool, totals: Totals) -> Told {
    Told::Suppressed { suppression_factor, is_allowed, totals }
}

const fn value(suppression_factor: f64, totals: Totals) -> Told {
    Told::Value { suppression_factor, totals }
}

/// The refusals that lines tell, by their numbers.
const REFUSALS: [(u64, Refusal); 14] = [
    (1, Refusal::BadWindow),
    (2, Refusal::BadBucket),
    (3, Refusal::BadCache),
    (4, Refusal::BadFactor),
    (5, Refusal::BadRoom),
    (6, Refusal::ClockWentBack),
    (7, Refusal::LongKey),
    (8, Refusal::BadRate),
    (9, Refusal::BadDraw),
    (10, Refusal::TotalTooLarge),
    (11, Refusal::NoFreeSlot),
    (12, Refusal::RingFull),
    (13, Refusal::Other(13)),
    (14, Refusal::NoCall),
];

/// Whether a refusal is told of lines without a reading.
fn without_reading(number: u64) -> bool {
    matches!(number, 1..=4 | 14)
}

/// A line of each word, and what it says.
const EACH_WORD: [(&str, u64, Told); 12] = [
    (
        "t=0 code=0 answer=allowed factor=0000000000000000 wait=0 left=0 total=6 declined=0",
        0,
        Told::Allowed { totals: totals(6, 0) },
    ),
    (
        "t=3000 code=0 answer=rejected factor=0000000000000000 wait=7000 left=6 total=10 declined=0",
        3_000,
        rejected(7_000, 6, totals(10, 0)),
    ),
    (
        "t=9007199254740992 code=0 answer=rejected factor=0000000000000000 wait=18446744073709551615 \
             left=18446744073709551614 total=9007199254740992 declined=9007199254740992",
        TOP,
        rejected(u64::MAX, u64::MAX - 1, totals(TOP, TOP)),
    ),
    (
        "t=1720 code=0 answer=yes factor=3fe999999999999a wait=0 left=0 total=42 declined=1",
        1_720,
        suppressed(0.8, true, totals(42, 1)),
    ),
    (
        "t=1700 code=0 answer=no factor=3fe0000000000000 wait=0 left=0 total=15 declined=5",
        1_700,
        suppressed(0.5, false, totals(15, 5)),
    ),
    (
        "t=1 code=0 answer=yes factor=0000000000000000 wait=0 left=0 total=1 declined=1",
        1,
        suppressed(0.0, true, totals(1, 1)),
    ),
    (
        "t=18446744073709551615 code=0 answer=no factor=3ff0000000000000 wait=0 left=0 total=0 declined=0",
        u64::MAX,
        suppressed(1.0, false, totals(0, 0)),
    ),
    (
        "t=11700 code=0 answer=value factor=0000000000000001 wait=0 left=0 total=15 declined=5",
        11_700,
        value(5e-324, totals(15, 5)),
    ),
    (
        "t=10001 code=0 answer=value factor=0000000000000000 wait=0 left=0 total=5 declined=0",
        10_001,
        value(0.0, totals(5, 0)),
    ),
    (
        "t=900 code=6 answer=refused factor=0000000000000000 wait=0 left=0 total=0 declined=0",
        900,
        Told::Refused(Refusal::ClockWentBack),
    ),
    (
        "t=900 code=13 answer=refused factor=0000000000000000 wait=0 left=0 total=0 declined=0",
        900,
        Told::Refused(Refusal::Other(13)),
    ),
    (
        "t=0 code=14 answer=refused factor=0000000000000000 wait=0 left=0 total=0 declined=0",
        0,
        Told::Refused(Refusal::NoCall),
    ),
];

/// Everything but refusals, at the edges.
fn edges() -> Vec<Told> {
    let mut all = Vec::new();
    for totals in TOTALS {
        all.push(Told::Allowed { totals });
        for wait in NUMBERS {
            all.extend(NUMBERS.map(|left| rejected(wait, left, totals)));
        }
        for factor in FACTORS {
            let others = [suppressed(factor, true, totals), suppressed(factor, false, totals), value(factor, totals)];
            all.extend(others);
        }
    }
    all
}

/// There is such a line, and it reads back as what it was printed from, to the factor's bits.
fn comes_back(reading: u64, told: Told) {
    let line = Line::new(reading, told).unwrap();
    let text = line.to_string();
    let read = Line::parse(&text).unwrap();
    assert_eq!((read, read.reading(), read.told()), (line, reading, told), "{text}");
    assert_eq!(text.parse(), Ok(line));
    assert_eq!(read.to_string(), text);
}

/// No line, or one that prints as these bytes.
fn reads_as_it_stands(bytes: &[u8]) -> bool {
    match Line::parse(bytes) {
        Ok(line) => {
            assert_eq!(line.to_string().as_bytes(), bytes, "{line:?}");
            true
        }
        Err(refusal) => {
            assert_eq!(refusal, Refusal::NoCall);
            false
        }
    }
}

/// A source of numbers (xorshift).
struct Drawn(u64);

impl Drawn {
    fn word(&mut self) -> u64 {
        self.0 ^= self.0 << 13;
        self.0 ^= self.0 >> 7;
        self.0 ^= self.0 << 17;
        self.0
    }

    fn below(&mut self, n: u64) -> u64 {
        (self.word() >> 11) % n
    }

    /// Of any length in digits, short ones as often as long ones.
    fn number(&mut self) -> u64 {
        let bits = self.below(64);
        self.word() >> bits
    }

    fn totals(&mut self) -> Totals {
        let total = self.number().min(TOP);
        totals(total, self.number() % (total + 1))
    }

    /// From 0 to 1, of any exponent.
    fn factor(&mut self) -> f64 {
        f64::from_bits(self.word() % (1.0_f64.to_bits() + 1))
    }

    /// A reading, and what may be told at it.
    fn told(&mut self) -> (u64, Told) {
        let told = match self.below(5) {
            0 => Told::Allowed { totals: self.totals() },
            1 => rejected(self.number(), self.number(), self.totals()),
            2 => suppressed(self.factor(), self.below(2) == 0, self.totals()),
            3 => value(self.factor(), self.totals()),
            _ => Told::Refused(REFUSALS[self.below(14) as usize].1),
        };
        match told {
            Told::Refused(refusal) if without_reading(refusal.number()) => (0, told),
            _ => (self.number(), told),
        }
    }
}

// ---- what reads

#[test]
fn what_each_word_says() {
    for (text, reading, told) in EACH_WORD {
        let line = Line::parse(text).unwrap();
        assert_eq!((line.reading(), line.told()), (reading, told));
        assert_eq!(line.to_string(), text);
        assert_eq!(Line::new(reading, told), Ok(line));
    }
}

#[test]
fn edges_come_back() {
    for told in edges() {
        for reading in NUMBERS {
            comes_back(reading, told);
        }
    }
}

#[test]
fn drawn_lines_come_back() {
    let mut drawn = Drawn(0x9e37_79b9_7f4a_7c15);
    for _ in 0..20_000 {
        let (reading, told) = drawn.told();
        comes_back(reading, told);
    }
}

/// All numbers from 1 to 14 read, 13 too, at any reading or at 0 alone; no others do.
#[test]
fn refusals() {
    for number in (0..=100).chain([u64::MAX]) {
        let refusal = REFUSALS.into_iter().find(|(known, _)| *known == number).map(|(_, refusal)| refusal);
        for reading in NUMBERS {
            let text = format!(
                "t={reading} code={number} answer=refused factor=0000000000000000 wait=0 left=0 total=0 declined=0"
            );
            let read = Line::parse(&text).map(|line| (line.reading(), line.told(), line.told().totals()));
            match refusal {
                Some(refusal) if reading == 0 || !without_reading(number) => {
                    assert_eq!(read, Ok((reading, Told::Refused(refusal), totals(0, 0))), "{text}");
                    comes_back(reading, Told::Refused(refusal));
                }
                _ => assert_eq!(read, Err(Refusal::NoCall), "{text}"),
            }
        }
    }
}

/// What `desk` printed for the lessons, and of what `shots` printed all but its own words.
#[test]
fn the_lessons() {
    let desk = [
        include_str!("../../../lessons/1.output"),
        include_str!("../../../lessons/2.output"),
        include_str!("../../../lessons/3.output"),
        include_str!("../../../lessons/3-hundred.output"),
    ];
    for line in desk.into_iter().flat_map(|output| output.split_terminator('\n')) {
        assert!(reads_as_it_stands(line.as_bytes()), "{line}");
    }
    for line in include_str!("../../../lessons/4.output").split_terminator('\n') {
        let own = ["answer=held", "code=19", "code=20", "code=21"].iter().any(|word| line.contains(word));
        assert_eq!(reads_as_it_stands(line.as_bytes()), !own, "{line}");
    }
}

// ---- what does not read

const ALLOWED: &str = "t=2000 code=0 answer=allowed factor=0000000000000000 wait=0 left=0 total=10 declined=0";
const REJECTED: &str = "t=3000 code=0 answer=rejected factor=0000000000000000 wait=7000 left=6 total=10 declined=2";
const YES: &str = "t=1720 code=0 answer=yes factor=3fe0000000000000 wait=0 left=0 total=15 declined=5";
const NO: &str = "t=1700 code=0 answer=no factor=3fe0000000000000 wait=0 left=0 total=15 declined=5";
const VALUE: &str = "t=1800 code=0 answer=value factor=3fe0000000000000 wait=0 left=0 total=15 declined=5";
const REFUSED: &str = "t=900 code=6 answer=refused factor=0000000000000000 wait=0 left=0 total=0 declined=0";

const ANSWERED: [&str; 5] = [ALLOWED, REJECTED, YES, NO, VALUE];

fn does_not_read(line: impl AsRef<[u8]>) {
    let bytes = line.as_ref();
    assert_eq!(Line::parse(bytes), Err(Refusal::NoCall), "{:?}", String::from_utf8_lossy(bytes));
}

/// The line reads, and with this in place of that it does not.
fn spoilt(line: &str, that: &str, this: &str) {
    assert_eq!(line.matches(that).count(), 1, "{that:?} in {line:?}");
    assert!(reads_as_it_stands(line.as_bytes()), "{line:?}");
    does_not_read(line.replace(that, this));
}

#[test]
fn numbers_that_do_not_read() {
    for field in ["t=3000", "code=0", "wait=7000", "left=6", "total=10", "declined=2"] {
        let (name, number) = field.split_once('=').unwrap();
        for before in ["0", "00", "+", "-", " ", "0x", "1e"] {
            spoilt(REJECTED, field, &format!("{name}={before}{number}"));
        }
        for other in ["", "18446744073709551616", "18446744073709551626", "184467440737095516150", "3.0", "\u{663}"] {
            spoilt(REJECTED, field, &format!("{name}={other}"));
        }
        spoilt(REJECTED, field, &format!("{name}={}", "1".repeat(39)));
        spoilt(REJECTED, field, &format!("{name}={}", "0".repeat(20)));
    }
}

#[test]
fn totals_that_do_not_read() {
    for line in [YES, NO, VALUE] {
        spoilt(line, "total=15", "total=9007199254740993");
        spoilt(line, "total=15", "total=18446744073709551615");
        spoilt(line, "total=15", "total=4");
        spoilt(line, "declined=5", "declined=16");
        spoilt(line, "declined=5", "declined=18446744073709551615");
    }
    spoilt(ALLOWED, "declined=0", "declined=11");
    spoilt(REJECTED, "declined=2", "declined=9007199254740992");
}

#[test]
fn factors_that_do_not_read() {
    let (one, infinity) = (1.0_f64.to_bits(), f64::INFINITY.to_bits());
    let of_doubles = [-0.0, -0.5, -1.0, 2.0, f64::MAX, f64::NEG_INFINITY, f64::NAN, -f64::NAN].map(f64::to_bits);
    for bits in of_doubles.into_iter().chain([one + 1, infinity, infinity + 1, u64::MAX]) {
        for line in [YES, NO, VALUE] {
            spoilt(line, "3fe0000000000000", &format!("{bits:016x}"));
        }
    }
    for text in ["3FE0000000000000", "3fE0000000000000", "3fe000000000000", "03fe0000000000000", "3fe000000000000g"] {
        spoilt(NO, "3fe0000000000000", text);
    }
    for text in ["", "0", "0.5", "3fe00000 0000000", "000000000000000A"] {
        spoilt(NO, "3fe0000000000000", text);
    }
}

#[test]
fn spaces_and_ends_that_do_not_read() {
    for line in ANSWERED.into_iter().chain([REFUSED]) {
        for (place, _) in line.match_indices(' ') {
            for other in ["", "  ", "\t", "\n", " \r", "\0", "_", "\u{a0}"] {
                does_not_read(format!("{}{other}{}", &line[..place], &line[place + 1..]));
            }
        }
        for end in [" ", "\t", "\r", "\n", "\r\n", "\0", ".", "\u{feff}", " held=0"] {
            does_not_read(format!("{line}{end}"));
            does_not_read(format!("{end}{line}"));
        }
        for length in 0..line.len() {
            does_not_read(&line[..length]);
            does_not_read(&line[length + 1..]);
        }
        does_not_read(format!("{line}\n{line}"));
    }
}

#[test]
fn words_that_do_not_read() {
    for word in ["held", "never", "unknown", "", "Allowed", "ALLOWED", "allow", "alloweds", "1"] {
        spoilt(ALLOWED, "allowed", word);
    }
    for (that, this) in [
        ("t=1700", "T=1700"),
        ("t=1700", "1700"),
        ("code=0", "code:0"),
        ("answer=no", "answer no"),
        ("factor=", "factors="),
        ("wait=0", "wait=0ms"),
        ("left=0 ", ""),
        ("total=15 declined=5", "declined=5 total=15"),
        ("declined=5", "total_declined=5"),
    ] {
        spoilt(NO, that, this);
    }
}

/// Fields that do not apply are 0, and a code stands with `refused` alone.
#[test]
fn fields_that_do_not_go_together() {
    for line in ANSWERED {
        for code in 1..=21 {
            spoilt(line, "code=0", &format!("code={code}"));
        }
    }
    spoilt(REFUSED, "code=6", "code=0");
    for line in [ALLOWED, YES, NO, VALUE, REFUSED] {
        spoilt(line, "wait=0", "wait=1");
        spoilt(line, "left=0", "left=1");
    }
    for line in [ALLOWED, REJECTED, REFUSED] {
        spoilt(line, "0000000000000000", "3fe0000000000000");
        spoilt(line, "0000000000000000", "0000000000000001");
        spoilt(line, "0000000000000000", "8000000000000000");
    }
    spoilt(REFUSED, "total=0", "total=1");
    spoilt(REFUSED, "total=0 declined=0", "total=1 declined=1");
}

#[test]
fn lines_of_any_length_and_bytes() {
    does_not_read("");
    for byte in 0..=u8::MAX {
        does_not_read([byte]);
        does_not_read(vec![byte; 100_000]);
        does_not_read([NO.as_bytes(), &vec![byte; 100_000]].concat());
        does_not_read([b"t=", vec![byte; 100_000].as_slice()].concat());
    }
    for place in 0..NO.len() {
        for byte in [0x00, 0x80, 0xc3, 0xff] {
            let mut bytes = NO.as_bytes().to_vec();
            bytes[place] = byte;
            does_not_read(bytes);
        }
    }
}

/// With one byte changed, left out or put in, a line does not read, or is another that prints as it stands.
#[test]
fn lines_beside_a_line() {
    let mut read = 0;
    for (line, _, _) in EACH_WORD {
        let line = line.as_bytes();
        for place in 0..line.len() {
            let (before, from) = line.split_at(place);
            let mut others = vec![[before, &from[1..]].concat()];
            for byte in b"0159afAFgt =+-.\n\r\t\0\x7f\xff" {
                others.push([before, &[*byte], &from[1..]].concat());
                others.push([before, &[*byte], from].concat());
            }
            read += others.iter().filter(|other| reads_as_it_stands(other)).count();
        }
    }
    assert!(read > 1_000, "{read}");
}

// ---- lines of their parts

#[test]
fn parts_of_no_line() {
    let fine = totals(15, 5);
    for totals in [totals(TOP + 1, 0), totals(u64::MAX, 0), totals(5, 6), totals(TOP, TOP + 1), totals(0, u64::MAX)] {
        let told = [
            Told::Allowed { totals },
            rejected(1, 1, totals),
            suppressed(0.5, true, totals),
            suppressed(0.5, false, totals),
            value(0.5, totals),
        ];
        for told in told {
            assert_eq!(Line::new(0, told), Err(Refusal::NoCall), "{told:?}");
        }
    }
    let above_one = 1.0 + f64::EPSILON;
    for factor in [-0.0, -5e-324, -0.5, above_one, 2.0, f64::INFINITY, f64::NEG_INFINITY, f64::NAN, -f64::NAN] {
        for told in [suppressed(factor, true, fine), suppressed(factor, false, fine), value(factor, fine)] {
            assert_eq!(Line::new(0, told), Err(Refusal::NoCall), "{told:?}");
        }
    }
    // a wait that is not whole milliseconds, or has too many of them
    let longest = Duration::from_millis(u64::MAX);
    let millisecond = Duration::from_millis(1);
    for wait in [Duration::from_nanos(1), longest + Duration::from_nanos(1), longest + millisecond, Duration::MAX] {
        assert_eq!(Line::new(0, Told::Rejected { wait, left: 0, totals: fine }), Err(Refusal::NoCall), "{wait:?}");
    }
}

#[test]
fn refusals_of_no_line() {
    let others = [
        Refusal::BadParty,
        Refusal::BadPromise,
        Refusal::BadNumber,
        Refusal::OldNumber,
        Refusal::TableFull,
        Refusal::ReadingTooLarge,
        Refusal::RingTooLong,
    ];
    // a number that has a name is told by it
    let unnamed = [0, 1, 6, 14, 15, 17, u64::MAX].map(Refusal::Other);
    for refusal in others.into_iter().chain(unnamed) {
        for reading in [0, 1_700] {
            assert_eq!(Line::new(reading, Told::Refused(refusal)), Err(Refusal::NoCall), "{refusal:?}");
        }
    }
    for (number, refusal) in REFUSALS {
        let line = Line::new(1, Told::Refused(refusal));
        assert_eq!(line.is_err(), without_reading(number), "{refusal:?}");
    }
}

// ---- decisions

const KEY: &[u8] = b"ctl7";
const WINDOW: Duration = Duration::from_secs(10);

/// What a line tells of a decision: all but the window.
fn told_of(decision: Decision, totals: Totals) -> Told {
    match decision {
        Decision::Allowed => Told::Allowed { totals },
        Decision::Rejected { retry_after, remaining_after_waiting, .. } => {
            Told::Rejected { wait: retry_after, left: remaining_after_waiting, totals }
        }
        Decision::Suppressed { suppression_factor, is_allowed } => suppressed(suppression_factor, is_allowed, totals),
    }
}

/// Printed and read, the decision comes back.
fn decision_comes_back(reading: u64, decision: Decision, totals: Totals) {
    let text = Line::new(reading, told_of(decision, totals)).unwrap().to_string();
    let line = Line::parse(text).unwrap();
    assert_eq!(line.decision(WINDOW), Some(decision));
    assert_eq!((line.reading(), line.told().totals()), (reading, totals));
}

#[test]
fn decisions_of_the_limiters() {
    let settings = Settings { window_seconds: 10, hard_limit_factor: 2.0, ..Settings::default() };
    let mut absolute = Absolute::new(settings, Room::for_settings(1, settings).unwrap());
    for (reading, count) in [(0, 6), (2_000, 4), (2_500, 1), (10_000, 1), (10_001, 1)] {
        let decision = absolute.inc(reading, KEY, 1.0, count).unwrap();
        decision_comes_back(reading, decision, totals(absolute.get(reading, KEY).unwrap(), 0));
    }
    let mut suppressed = Suppressed::new(settings, Room::for_settings(1, settings).unwrap());
    for (reading, count, draw) in [(0, 8, 0), (1_500, 2, 0), (1_700, 5, 1 << 52), (1_760, 10, 0), (1_770, 9, 1 << 52)] {
        let decision = suppressed.inc(reading, KEY, 1.0, count, draw).unwrap();
        let snapshot = suppressed.get(reading, KEY).unwrap();
        decision_comes_back(reading, decision, totals(snapshot.total, snapshot.total_declined));
        comes_back(reading, value(snapshot.suppression_factor, totals(snapshot.total, snapshot.total_declined)));
    }
}

#[test]
fn decisions_of_lines() {
    let decision = |line: &str| Line::parse(line).unwrap().decision(WINDOW);
    assert_eq!(decision(ALLOWED), Some(Decision::Allowed));
    assert_eq!(
        decision(REJECTED),
        Some(Decision::Rejected {
            window_size: WINDOW,
            retry_after: Duration::from_secs(7),
            remaining_after_waiting: 6
        })
    );
    assert_eq!(decision(YES), Some(Decision::Suppressed { suppression_factor: 0.5, is_allowed: true }));
    assert_eq!(decision(NO), Some(Decision::Suppressed { suppression_factor: 0.5, is_allowed: false }));
    assert_eq!((decision(VALUE), decision(REFUSED)), (None, None));
}
