//! The gateway: a shot is known by its controller and its number. Its table has a room's header and directory, with nothing behind: word 0 says
//! how many controllers it knows, nobody holds an entry, and an entry has the last admitted number where a room's has its use.

use crate::parties::Caller;
use crate::room::{ENTRY, HEADER, LENGTH, MOST_SLOTS, entry_start, free, is_free, packed};
use crate::rules::{Decision, Refusal, Settings, refuse_if};
use crate::suppressed;

/// How many controllers a table knows at most.
const MOST: usize = MOST_SLOTS;

/// How many words a table has.
pub const TABLE: usize = HEADER + ENTRY * MOST;

/// The greatest number of a shot.
pub const TOP_NUMBER: u64 = (1 << 32) - 1;

const NUMBER: usize = 0;

/// A controller's shot, without settings and reading.
#[derive(Clone, Copy, Debug)]
pub struct Shot<'a> {
    pub controller: &'a [u8],
    pub number: u64,
    /// Per second.
    pub rate: f64,
    pub draw: u64,
}

/// What a shot that is not refused hears.
#[derive(Clone, Copy, Debug, PartialEq)]
pub enum ShotAnswer {
    /// It was admitted before.
    Held,
    Decided(Decision),
}

pub fn empty_table() -> Vec<u64> {
    vec![0; TABLE]
}

/// Whether the words have a table's length and the first words of its header.
fn is_table(table: &[u64]) -> bool {
    table.len() == TABLE && table[0] <= MOST as u64 && table[1..=2] == [0, 0]
}

fn is_number(number: u64) -> bool {
    (1..=TOP_NUMBER).contains(&number)
}

/// Where a controller's entry is or would be, and its last admitted number, 0 where there is none.
struct Place {
    at: usize,
    last: u64,
}

/// The controller's place, or none in an unsound table.
fn place(table: &[u64], controller: &[u8]) -> Option<Place> {
    if !is_table(table) {
        return None;
    }
    let known = table[0] as usize;
    let new = Place { at: known, last: 0 };
    if controller.len() > 32 {
        return Some(new);
    }
    let wanted = packed(controller);
    let mut own = (0..known)
        .filter(|at| table[entry_start(*at)..][LENGTH..ENTRY] == wanted && is_free(table, *at));
    let Some(at) = own.next() else {
        return Some(new);
    };
    let is_alone = own.next().is_none();
    let last = table[entry_start(at) + NUMBER];
    (is_alone && is_number(last)).then_some(Place { at, last })
}

/// The entry gets the number, a new one behind the others, where any words may stand.
fn remember(table: &mut [u64], at: usize, controller: &[u8], number: u64) {
    free(table, at);
    let entry = &mut table[entry_start(at)..][..ENTRY];
    entry[NUMBER] = number;
    entry[LENGTH..].copy_from_slice(&packed(controller));
    table[0] = table[0].max(at as u64 + 1);
}

fn is_admitted(decision: Decision) -> bool {
    matches!(decision, Decision::Allowed | Decision::Suppressed { admitted: true, .. })
}

/// The last admitted number again is held and changes nothing; a higher one goes to the suppressed limiter, with its caller, and is
/// remembered if it is admitted.
pub fn shot(
    settings: &Settings,
    table: &mut [u64],
    room: &mut [u64],
    reading: u64,
    caller: Caller,
    shot: Shot,
) -> Result<ShotAnswer, Refusal> {
    let Shot { controller, number, rate, draw } = shot;
    refuse_if(!is_number(number), 19)?;
    let Some(Place { at, last }) = place(table, controller) else {
        // An unsound table is refused at the place of an unsound room.
        settings.judge()?;
        return Err(Refusal(5));
    };
    refuse_if(number < last, 20)?;
    if number == last {
        return Ok(ShotAnswer::Held);
    }
    refuse_if(at == MOST, 21)?;
    let decision = suppressed::inc(settings, room, reading, caller, controller, rate, 1, draw)?;
    if is_admitted(decision) {
        remember(table, at, controller, number);
    }
    Ok(ShotAnswer::Decided(decision))
}

/// A table is emptied; 5 for words that are none.
pub fn new_season(table: &mut [u64]) -> Result<(), Refusal> {
    refuse_if(!is_table(table), 5)?;
    table.fill(0);
    Ok(())
}

/// Makes an empty table of any words of its length; other lengths stay.
pub fn make_table(table: &mut [u64]) -> bool {
    let fits = table.len() == TABLE;
    if fits {
        table.fill(0);
    }
    fits
}
