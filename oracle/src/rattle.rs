//! The Rattle code, over the C face of its archive. What is lent stands between words that no call may reach.

use twin::calls::{Answer, Asked, Call, Limiters, Nameless, Op, Rooms, Row};
use twin::gateway::Shot;
use twin::parties::Caller;
use twin::room::Bucket;
use twin::rules::{ClockMode, Comparator, Kind, Mode, Refusal, Settings};
use twin::set::Wanted;

/// The archive's functions: settings, a room, what the call asks for, mostly with a reading and a caller first, and the row of five
/// words for the answer.
macro_rules! faces {
    ($($name:ident($($argument:ident: $type:ty),*);)*) => {
        unsafe extern "C" {
            $(fn $name(
                window: u64,
                bucket: u64,
                cache: u64,
                factor: f64,
                clock: u64,
                room: *mut u64,
                words: usize,
                $($argument: $type,)*
                row: *mut u64,
            ) -> u64;)*
        }
    };
}

faces! {
    frostaxle_absolute_inc(
        reading: u64, party: u64, first: u64, second: u64, key: *const u8, length: usize, rate: f64, count: u64
    );
    frostaxle_absolute_is_allowed(
        reading: u64, party: u64, first: u64, second: u64, key: *const u8, length: usize
    );
    frostaxle_absolute_get(
        reading: u64, party: u64, first: u64, second: u64, key: *const u8, length: usize
    );
    frostaxle_absolute_set_rate_limit(
        reading: u64, party: u64, first: u64, second: u64, key: *const u8, length: usize, rate: f64
    );
    frostaxle_absolute_delete(
        reading: u64, party: u64, first: u64, second: u64, key: *const u8, length: usize
    );
    frostaxle_absolute_clear(reading: u64, party: u64, first: u64, second: u64);
    frostaxle_absolute_set_if(
        reading: u64, party: u64, first: u64, second: u64, key: *const u8, length: usize, rate: f64, count: u64,
        comparator: u64, operand: u64
    );
    frostaxle_absolute_set_if_preserve_history(
        reading: u64, party: u64, first: u64, second: u64, key: *const u8, length: usize, rate: f64, count: u64,
        comparator: u64, operand: u64, preservation: u64
    );
    frostaxle_absolute_cleanup(reading: u64, party: u64, first: u64, second: u64, stale: u64);
    frostaxle_suppressed_inc(
        reading: u64, party: u64, first: u64, second: u64, key: *const u8, length: usize, rate: f64, count: u64, draw: u64
    );
    frostaxle_suppressed_get(
        reading: u64, party: u64, first: u64, second: u64, key: *const u8, length: usize
    );
    frostaxle_suppressed_get_suppression_factor(
        reading: u64, party: u64, first: u64, second: u64, key: *const u8, length: usize
    );
    frostaxle_suppressed_set_rate_limit(
        reading: u64, party: u64, first: u64, second: u64, key: *const u8, length: usize, rate: f64
    );
    frostaxle_suppressed_delete(
        reading: u64, party: u64, first: u64, second: u64, key: *const u8, length: usize
    );
    frostaxle_suppressed_clear(reading: u64, party: u64, first: u64, second: u64);
    frostaxle_suppressed_set_if(
        reading: u64, party: u64, first: u64, second: u64, key: *const u8, length: usize, rate: f64, count: u64,
        comparator: u64, operand: u64
    );
    frostaxle_suppressed_set_if_preserve_history(
        reading: u64, party: u64, first: u64, second: u64, key: *const u8, length: usize, rate: f64, count: u64,
        comparator: u64, operand: u64, preservation: u64
    );
    frostaxle_suppressed_cleanup(reading: u64, party: u64, first: u64, second: u64, stale: u64);
    frostaxle_absolute_bucket(party: u64, key: *const u8, length: usize, at: usize);
    frostaxle_suppressed_bucket(party: u64, key: *const u8, length: usize, at: usize);
    frostaxle_provider_cleanup(
        suppressed: *mut u64, suppressed_words: usize, reading: u64, party: u64, absolute_first: u64, absolute_second: u64,
        suppressed_first: u64, suppressed_second: u64, stale: u64
    );
    frostaxle_gateway_shot(
        suppressed: *mut u64, suppressed_words: usize, reading: u64, party: u64, first: u64, second: u64,
        controller: *const u8, length: usize, number: u64, rate: f64, draw: u64
    );
}

unsafe extern "C" {
    fn frostaxle_room_words(slots: u64, ring: u64) -> usize;
    fn frostaxle_make(room: *mut u64, words: usize, slots: u64, ring: u64) -> u64;
    fn frostaxle_gateway_new_season(table: *mut u64, words: usize, row: *mut u64) -> u64;
    fn frostaxle_gateway_make_table(table: *mut u64, words: usize) -> u64;
    fn frostaxle_sufficient_ring(
        window: u64,
        bucket: u64,
        cache: u64,
        factor: f64,
        clock: u64,
        row: *mut u64,
    ) -> u64;
    fn frostaxle_read_line(line: *const u8, length: usize, row: *mut u64) -> u64;
}

/// How many words a room needs, 0 where there is no such room.
pub fn room_words(slots: u64, ring: u64) -> usize {
    unsafe { frostaxle_room_words(slots, ring) }
}

/// Makes an empty room; gives the number that the function returns.
pub fn make(room: &mut [u64], slots: u64, ring: u64) -> u64 {
    let mut lent = Lent::new(room);
    let words = lent.words();
    let number = unsafe { frostaxle_make(words.as_mut_ptr(), words.len(), slots, ring) };
    lent.give_back(room);
    number
}

/// What stands on both sides of lent words, and in a row before the call.
const GUARD: u64 = 0x5a5a_a5a5_c3c3_3c3c;
const GUARDS: usize = 8;
const ROW: usize = 5;
const LINE_ROW: usize = 7;
const MOST_BUCKETS: usize = 512;

/// Words with guards on both sides.
struct Lent(Vec<u64>);

impl Lent {
    fn new(words: &[u64]) -> Self {
        let mut lent = vec![GUARD; words.len() + 2 * GUARDS];
        lent[GUARDS..GUARDS + words.len()].copy_from_slice(words);
        Lent(lent)
    }

    fn words(&mut self) -> &mut [u64] {
        let end = self.0.len() - GUARDS;
        &mut self.0[GUARDS..end]
    }

    /// The words back, if the guards stand.
    fn give_back(mut self, to: &mut [u64]) {
        to.copy_from_slice(self.words());
        let end = self.0.len() - GUARDS;
        let guards = self.0[..GUARDS].iter().chain(&self.0[end..]);
        assert!(guards.copied().all(|word| word == GUARD), "a call wrote outside what it was lent");
    }
}

/// The row back, once a function returned this number.
fn row_back<const WORDS: usize>(row: Lent, number: u64) -> [u64; WORDS] {
    let mut told = [0; WORDS];
    row.give_back(&mut told);
    assert_eq!(number, told[0], "what is returned is the row's first word");
    told
}

/// A comparator's number and operand.
fn comparator_numbers(comparator: Comparator) -> (u64, u64) {
    match comparator {
        Comparator::Always => (0, 0),
        Comparator::Eq(operand) => (1, operand),
        Comparator::Lt(operand) => (2, operand),
        Comparator::Gt(operand) => (3, operand),
        Comparator::Ne(operand) => (4, operand),
    }
}

/// What stands for a clock mode on the C face: for nanoseconds any number but 0.
fn clock_numbers(clock: ClockMode) -> &'static [u64] {
    match clock {
        ClockMode::Milliseconds => &[0],
        ClockMode::Nanoseconds => &[1, 256, 1 << 32, u64::MAX],
    }
}

/// One of them, by turns.
fn clock_number(clock: ClockMode, reading: u64) -> u64 {
    let numbers = clock_numbers(clock);
    numbers[reading as usize % numbers.len()]
}

/// One call under way: its settings, reading, caller and key, the lent rooms and the row.
struct Face<'a> {
    settings: Settings,
    reading: u64,
    caller: Caller,
    key: &'a [u8],
    absolute: Lent,
    suppressed: Lent,
    row: Lent,
}

/// A function of the archive on one of the rooms, with what follows the room.
macro_rules! ask {
    ($face:ident.$room:ident, $function:ident $(, $argument:expr)*) => {{
        let Settings { window, bucket, cache, factor, clock } = $face.settings;
        let clock = clock_number(clock, $face.reading);
        let (room, row) = ($face.$room.words(), $face.row.words());
        let (start, words) = (room.as_mut_ptr(), room.len());
        // The room, the key and the row live through the call, and only the call has them.
        unsafe {
            $function(window, bucket, cache, factor, clock, start, words $(, $argument)*, row.as_mut_ptr())
        }
    }};
}

/// The same, with what follows the reading and the caller.
macro_rules! call {
    ($face:ident.$room:ident, $function:ident $(, $argument:expr)*) => {{
        let Caller { party, first, second } = $face.caller;
        ask!($face.$room, $function, $face.reading, party, first, second $(, $argument)*)
    }};
}

/// The function of the room's kind.
macro_rules! either {
    ($face:ident, $kind:expr, $absolute:ident | $suppressed:ident $(, $argument:expr)*) => {
        match $kind {
            Kind::Absolute => call!($face.absolute, $absolute $(, $argument)*),
            Kind::Suppressed => call!($face.suppressed, $suppressed $(, $argument)*),
        }
    };
}

/// A set as its numbers give it; without a preservation it replaces.
#[derive(Clone, Copy)]
struct SetNumbers {
    rate: f64,
    count: u64,
    comparator: u64,
    operand: u64,
    preservation: Option<u64>,
}

impl From<Wanted> for SetNumbers {
    fn from(wanted: Wanted) -> Self {
        let Wanted { rate, count, .. } = wanted;
        let (comparator, operand) = comparator_numbers(wanted.comparator);
        let preservation = match wanted.mode {
            Mode::Replace => None,
            Mode::PreserveNewest => Some(0),
            Mode::PreserveOldest => Some(1),
        };
        SetNumbers { rate, count, comparator, operand, preservation }
    }
}

impl From<(f64, u64, Nameless)> for SetNumbers {
    fn from((rate, count, nameless): (f64, u64, Nameless)) -> Self {
        let Nameless { comparator, preservation } = nameless;
        SetNumbers { rate, count, comparator, operand: 0, preservation }
    }
}

impl<'a> Face<'a> {
    fn new(
        settings: &Settings,
        reading: u64,
        caller: Caller,
        key: &'a [u8],
        absolute: &[u64],
        suppressed: &[u64],
    ) -> Self {
        let (absolute, suppressed) = (Lent::new(absolute), Lent::new(suppressed));
        let row = Lent::new(&[GUARD; ROW]);
        Face { settings: *settings, reading, caller, key, absolute, suppressed, row }
    }

    fn set(&mut self, kind: Kind, numbers: SetNumbers) -> u64 {
        let (key, length) = (self.key.as_ptr(), self.key.len());
        let SetNumbers { rate, count, comparator, operand, preservation } = numbers;
        match preservation {
            None => either!(
                self,
                kind,
                frostaxle_absolute_set_if | frostaxle_suppressed_set_if,
                key,
                length,
                rate,
                count,
                comparator,
                operand
            ),
            Some(preservation) => either!(
                self,
                kind,
                frostaxle_absolute_set_if_preserve_history
                    | frostaxle_suppressed_set_if_preserve_history,
                key,
                length,
                rate,
                count,
                comparator,
                operand,
                preservation
            ),
        }
    }

    /// The provider's cleanup, with what is promised in the suppressed room.
    fn cleanup_both(&mut self, stale: u64, own_first: u64, own_second: u64) -> u64 {
        let suppressed = self.suppressed.words();
        let (start, words) = (suppressed.as_mut_ptr(), suppressed.len());
        let (reading, Caller { party, first, second }) = (self.reading, self.caller);
        ask!(
            self.absolute,
            frostaxle_provider_cleanup,
            start,
            words,
            reading,
            party,
            first,
            second,
            own_first,
            own_second,
            stale
        )
    }

    /// Makes the call; gives the number that the function returns.
    fn make(&mut self, op: Op) -> u64 {
        let (key, length) = (self.key.as_ptr(), self.key.len());
        match op {
            Op::AbsoluteInc { rate, count } => {
                call!(self.absolute, frostaxle_absolute_inc, key, length, rate, count)
            }
            Op::IsAllowed => call!(self.absolute, frostaxle_absolute_is_allowed, key, length),
            Op::AbsoluteGet => call!(self.absolute, frostaxle_absolute_get, key, length),
            Op::SuppressedInc { rate, count, draw } => {
                call!(self.suppressed, frostaxle_suppressed_inc, key, length, rate, count, draw)
            }
            Op::SuppressedGet => call!(self.suppressed, frostaxle_suppressed_get, key, length),
            Op::GetSuppressionFactor => {
                call!(self.suppressed, frostaxle_suppressed_get_suppression_factor, key, length)
            }
            Op::CleanupBoth { stale, first, second } => self.cleanup_both(stale, first, second),
            op => self.make_shared(op),
        }
    }

    /// The calls that both limiters have.
    fn make_shared(&mut self, op: Op) -> u64 {
        let (key, length) = (self.key.as_ptr(), self.key.len());
        match op {
            Op::SetRateLimit { kind, rate } => either!(
                self,
                kind,
                frostaxle_absolute_set_rate_limit | frostaxle_suppressed_set_rate_limit,
                key,
                length,
                rate
            ),
            Op::Delete { kind } => either!(
                self,
                kind,
                frostaxle_absolute_delete | frostaxle_suppressed_delete,
                key,
                length
            ),
            Op::Clear { kind } => {
                either!(self, kind, frostaxle_absolute_clear | frostaxle_suppressed_clear)
            }
            Op::Set { kind, wanted } => self.set(kind, wanted.into()),
            Op::NamelessSet { kind, rate, count, nameless } => {
                self.set(kind, (rate, count, nameless).into())
            }
            Op::Cleanup { kind, stale } => {
                either!(
                    self,
                    kind,
                    frostaxle_absolute_cleanup | frostaxle_suppressed_cleanup,
                    stale
                )
            }
            op => unreachable!("no one function of the C face is {op:?}"),
        }
    }

    /// The row that a call leaves, once it returned this number.
    fn told(&mut self, number: u64) -> [u64; ROW] {
        let mut row = [0; ROW];
        row.copy_from_slice(self.row.words());
        assert_eq!(number, row[0], "what is returned is the row's first word");
        row
    }

    /// The answer of a call that is one function.
    fn answer(&mut self, op: Op) -> Answer {
        let number = self.make(op);
        let row = self.told(number);
        answer(op, row).unwrap_or_else(|| panic!("no answer to {op:?} has the row {row:?}"))
    }

    /// The bucket at a place of the read-out, none past the newest, or the refusal.
    fn bucket(&mut self, kind: Kind, at: usize) -> Result<Option<Bucket>, u64> {
        let (party, key, length) = (self.caller.party, self.key.as_ptr(), self.key.len());
        self.row.words().fill(GUARD);
        let number = match kind {
            Kind::Absolute => {
                ask!(self.absolute, frostaxle_absolute_bucket, party, key, length, at)
            }
            Kind::Suppressed => {
                ask!(self.suppressed, frostaxle_suppressed_bucket, party, key, length, at)
            }
        };
        match self.told(number) {
            [0, 1, count, declined, time] => Ok(Some(Bucket { count, declined, time })),
            [0, 2, 0, 0, 0] => Ok(None),
            [number, 0, 0, 0, 0] => Err(number),
            row => panic!("no bucket of a read-out has the row {row:?}"),
        }
    }

    /// How many buckets a read-out has. The row is filled from the oldest on until there is none or it is full; where the others
    /// end is found by halving.
    fn fill(&mut self, kind: Kind, row: &mut Row) -> Result<usize, u64> {
        let mut held = 0;
        for place in row {
            let Some(bucket) = self.bucket(kind, held)? else {
                return Ok(held);
            };
            *place = bucket;
            held += 1;
        }
        let mut end = MOST_BUCKETS;
        while held < end {
            let middle = (held + end) / 2;
            match self.bucket(kind, middle)? {
                Some(_) => held = middle + 1,
                None => end = middle,
            }
        }
        Ok(held)
    }

    /// The read-out. From its end on there is no bucket, and a refusal is the same at every place.
    fn read_out(&mut self, kind: Kind, row: &mut Row) -> Answer {
        let (answer, end, wanted) = match self.fill(kind, row) {
            Ok(held) => (Answer::Buckets(held as u64), held, Ok(None)),
            Err(number) => (Answer::Refused(number), 0, Err(number)),
        };
        for at in [end, end + 1, MOST_BUCKETS, 1 << 63, usize::MAX] {
            let told = self.bucket(kind, at);
            assert!(told == wanted, "{answer:?}, and place {at} has {told:?}");
        }
        answer
    }
}

fn yes(word: u64) -> Option<bool> {
    [false, true].into_iter().find(|is| u64::from(*is) == word)
}

/// The answer that a row stands for, if it stands for one of the call's: number, case, three values.
fn answer(op: Op, row: [u64; ROW]) -> Option<Answer> {
    let [number, case, x, y, z] = row;
    if number != 0 {
        return (row[1..] == [0; 4]).then_some(Answer::Refused(number));
    }
    Some(match (op, case, [x, y, z]) {
        (Op::AbsoluteInc { .. } | Op::IsAllowed | Op::SuppressedInc { .. }, 1, [0, 0, 0]) => {
            Answer::Allowed
        }
        (Op::AbsoluteInc { .. } | Op::IsAllowed, 2, [window, wait, left]) => {
            Answer::Rejected { window, wait, left }
        }
        (Op::SuppressedInc { .. }, 3, [factor, admitted, 0]) => {
            Answer::Suppressed { factor, admitted: yes(admitted)? }
        }
        (Op::AbsoluteGet, 1, [total, 0, 0]) => Answer::Total(total),
        (Op::SuppressedGet, 1, [total, declined, factor]) => {
            Answer::Snapshot { total, declined, factor }
        }
        (Op::GetSuppressionFactor, 1, [factor, 0, 0]) => Answer::Factor(factor),
        (Op::SetRateLimit { .. }, 1, [old, 0, 0]) => Answer::OldRate(Some(old)),
        (Op::SetRateLimit { .. }, 2, [0, 0, 0]) => Answer::OldRate(None),
        (Op::Delete { .. }, 1, [accepted, 0, 0]) => Answer::Deleted(Some(accepted)),
        (Op::Delete { .. }, 2, [0, 0, 0]) => Answer::Deleted(None),
        (Op::Set { .. }, 1, [matched, previous, current]) => {
            Answer::Set { matched: yes(matched)?, previous, current }
        }
        (Op::Clear { .. } | Op::Cleanup { .. } | Op::CleanupBoth { .. }, 1, [0, 0, 0]) => {
            Answer::Done
        }
        _ => return None,
    })
}

/// The row that a gateway's call leaves, from the function's number and what it wrote.
fn gateway_row(
    settings: &Settings,
    table: &mut Lent,
    room: &mut Lent,
    reading: u64,
    asked: Asked,
) -> [u64; ROW] {
    let mut row = Lent::new(&[GUARD; ROW]);
    let (table, room) = (table.words(), room.words());
    let (start, words, told) = (table.as_mut_ptr(), table.len(), row.words().as_mut_ptr());
    let number = match asked {
        Asked::Shot(caller, Shot { controller, number, rate, draw }) => unsafe {
            let Caller { party, first, second } = caller;
            let Settings { window, bucket, cache, factor, clock } = *settings;
            let clock = clock_number(clock, reading);
            let (name, length) = (controller.as_ptr(), controller.len());
            let (suppressed, many) = (room.as_mut_ptr(), room.len());
            frostaxle_gateway_shot(
                window, bucket, cache, factor, clock, start, words, suppressed, many, reading,
                party, first, second, name, length, number, rate, draw, told,
            )
        },
        Asked::NewSeason => unsafe { frostaxle_gateway_new_season(start, words, told) },
        Asked::MakeTable => {
            // It has no row: what it returns is all that it tells.
            let number = unsafe { frostaxle_gateway_make_table(start, words) };
            row.words().copy_from_slice(&[number, u64::from(number == 0), 0, 0, 0]);
            number
        }
    };
    row_back(row, number)
}

/// The answer that a gateway's row stands for, if it stands for one of the call's.
fn gateway_answer(asked: Asked, row: [u64; ROW]) -> Option<Answer> {
    Some(match (asked, row) {
        (_, [number, 0, 0, 0, 0]) if number != 0 => Answer::Refused(number),
        (Asked::Shot(..), [0, 1, 0, 0, 0]) => Answer::Allowed,
        (Asked::Shot(..), [0, 3, factor, admitted, 0]) => {
            Answer::Suppressed { factor, admitted: yes(admitted)? }
        }
        (Asked::Shot(..), [0, 4, 0, 0, 0]) => Answer::Held,
        (Asked::NewSeason | Asked::MakeTable, [0, 1, 0, 0, 0]) => Answer::Done,
        _ => return None,
    })
}

/// The row with the length that a ring must have, for one of the numbers that stand for a clock mode.
fn ring_row(settings: &Settings, clock: u64) -> [u64; ROW] {
    let Settings { window, bucket, cache, factor, clock: _ } = *settings;
    let mut row = Lent::new(&[GUARD; ROW]);
    let told = row.words().as_mut_ptr();
    let number = unsafe { frostaxle_sufficient_ring(window, bucket, cache, factor, clock, told) };
    row_back(row, number)
}

/// The row of a line that is read back. It stands between digits, which no reading may take in.
pub fn read_line(line: &[u8]) -> [u64; LINE_ROW] {
    let digits: &[u8] = b"12345678";
    let lent = [digits, line, digits].concat();
    let mut row = Lent::new(&[GUARD; LINE_ROW]);
    let (start, told) = (lent[digits.len()..].as_ptr(), row.words().as_mut_ptr());
    let number = unsafe { frostaxle_read_line(start, line.len(), told) };
    row_back(row, number)
}

/// The Rattle code.
pub struct Rattle;

impl Limiters for Rattle {
    fn name(&self) -> &'static str {
        "the Rattle code"
    }

    fn call(
        &self,
        settings: &Settings,
        rooms: &mut Rooms,
        reading: u64,
        call: Call,
        row: &mut Row,
    ) -> Answer {
        let Call { caller, key, op } = call;
        let (absolute, suppressed) = (&rooms.absolute, &rooms.suppressed);
        let mut face = Face::new(settings, reading, caller, key, absolute, suppressed);
        let answer = match op {
            Op::ReadOut { kind } => face.read_out(kind, row),
            op => face.answer(op),
        };
        let Face { absolute, suppressed, row: told, .. } = face;
        absolute.give_back(&mut rooms.absolute);
        suppressed.give_back(&mut rooms.suppressed);
        told.give_back(&mut [0; ROW]);
        answer
    }

    fn ask(
        &self,
        settings: &Settings,
        table: &mut [u64],
        room: &mut [u64],
        reading: u64,
        asked: Asked,
    ) -> Answer {
        let (mut lent_table, mut lent_room) = (Lent::new(table), Lent::new(room));
        let row = gateway_row(settings, &mut lent_table, &mut lent_room, reading, asked);
        lent_table.give_back(table);
        lent_room.give_back(room);
        gateway_answer(asked, row)
            .unwrap_or_else(|| panic!("no answer to {asked:?} has the row {row:?}"))
    }

    /// Every number that stands for the clock mode must tell the same.
    fn sufficient_ring(&self, settings: &Settings) -> Result<u64, Refusal> {
        let numbers = clock_numbers(settings.clock);
        let rows: Vec<[u64; ROW]> =
            numbers.iter().map(|clock| ring_row(settings, *clock)).collect();
        let is_one = rows.iter().all(|row| *row == rows[0]);
        assert!(is_one, "{settings:?} has rings of {rows:?} by the clock's number");
        match rows[0] {
            [0, 1, buckets, 0, 0] => Ok(buckets),
            [number, 0, 0, 0, 0] if number != 0 => Err(Refusal(number)),
            row => panic!("no length of a ring has the row {row:?}"),
        }
    }
}
