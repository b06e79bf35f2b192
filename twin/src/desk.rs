//! The desk program: lines of calls in, lines of answers out.

use crate::lines::{BAD_LINE, Line, Program, Told, printed};
use crate::parties::Caller;
use crate::room::empty_room;
use crate::rules::{Refusal, Settings};
use crate::{absolute, suppressed};

const SLOTS: usize = 4;
/// Suffices for the default settings.
const RING: usize = 298;

#[derive(Clone, Copy)]
enum DeskOp {
    AbsoluteInc,
    AbsoluteGet,
    SuppressedInc,
    SuppressedGet,
}

fn read_op(word: &[u8]) -> Result<DeskOp, Refusal> {
    match word {
        b"ainc" => Ok(DeskOp::AbsoluteInc),
        b"aget" => Ok(DeskOp::AbsoluteGet),
        b"sinc" => Ok(DeskOp::SuppressedInc),
        b"sget" => Ok(DeskOp::SuppressedGet),
        _ => Err(BAD_LINE),
    }
}

struct DeskWish {
    op: DeskOp,
    /// Per second.
    rate: f64,
    count: u64,
    draw: u64,
}

/// The two rooms that desk holds.
struct Desk {
    settings: Settings,
    absolute: Vec<u64>,
    suppressed: Vec<u64>,
}

impl Program for Desk {
    type Wish = DeskWish;

    fn begin(settings: Settings) -> Self {
        Desk { settings, absolute: empty_room(SLOTS, RING), suppressed: empty_room(SLOTS, RING) }
    }

    fn read<'a>(line: &mut Line<'a>) -> Result<(&'a [u8], DeskWish), Refusal> {
        line.skip(b" op=")?;
        let op = read_op(line.word())?;
        let key = line.key(b" key=")?;
        let rate = line.rate()?;
        let count = line.named(b" n=")?;
        let draw = line.named(b" draw=")?;
        Ok((key, DeskWish { op, rate, count, draw }))
    }

    fn ask(&mut self, reading: u64, key: &[u8], wish: &DeskWish) -> Result<Told, Refusal> {
        let DeskWish { op, rate, count, draw } = *wish;
        let Desk { settings, absolute: a, suppressed: s } = self;
        let caller = Caller::alone(SLOTS);
        match op {
            DeskOp::AbsoluteInc => {
                absolute::inc(settings, a, reading, caller, key, rate, count).map(Told::from)
            }
            DeskOp::SuppressedInc => {
                suppressed::inc(settings, s, reading, caller, key, rate, count, draw)
                    .map(Told::from)
            }
            DeskOp::AbsoluteGet => {
                absolute::get(settings, a, reading, caller, key)?;
                Ok(Told::new("value", 0.0))
            }
            DeskOp::SuppressedGet => {
                let got = suppressed::get(settings, s, reading, caller, key)?;
                Ok(Told::new("value", got.factor))
            }
        }
    }

    /// The room that the call concerns. A get has taken the expired buckets out: stored is live there.
    fn room(&self, wish: &DeskWish) -> &[u64] {
        match wish.op {
            DeskOp::AbsoluteInc | DeskOp::AbsoluteGet => &self.absolute,
            DeskOp::SuppressedInc | DeskOp::SuppressedGet => &self.suppressed,
        }
    }
}

/// What desk prints for its input.
pub fn desk(input: &[u8]) -> Vec<u8> {
    printed::<Desk>(input)
}
