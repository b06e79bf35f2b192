//! The shots program: lines of shots in, lines of answers out.

use crate::gateway::{self, Shot, ShotAnswer, empty_table};
use crate::lines::{Line, Program, Told, printed};
use crate::parties::Caller;
use crate::room::empty_room;
use crate::rules::{Refusal, Settings};

const SLOTS: usize = 64;
/// Suffices for the default settings.
const RING: usize = 298;

struct ShotWish {
    number: u64,
    /// Per second.
    rate: f64,
    draw: u64,
}

/// The table and the suppressed room that shots holds.
struct Shots {
    settings: Settings,
    table: Vec<u64>,
    room: Vec<u64>,
}

impl Program for Shots {
    type Wish = ShotWish;

    fn begin(settings: Settings) -> Self {
        Shots { settings, table: empty_table(), room: empty_room(SLOTS, RING) }
    }

    fn read<'a>(line: &mut Line<'a>) -> Result<(&'a [u8], ShotWish), Refusal> {
        let controller = line.key(b" ctl=")?;
        let number = line.named(b" shot=")?;
        let rate = line.rate()?;
        let draw = line.named(b" draw=")?;
        Ok((controller, ShotWish { number, rate, draw }))
    }

    fn ask(&mut self, reading: u64, controller: &[u8], wish: &ShotWish) -> Result<Told, Refusal> {
        let ShotWish { number, rate, draw } = *wish;
        let Shots { settings, table, room } = self;
        let shot = Shot { controller, number, rate, draw };
        Ok(match gateway::shot(settings, table, room, reading, Caller::alone(SLOTS), shot)? {
            ShotAnswer::Held => Told::new("held", 0.0),
            ShotAnswer::Decided(decision) => decision.into(),
        })
    }

    fn room(&self, _wish: &ShotWish) -> &[u64] {
        &self.room
    }
}

/// What shots prints for its input.
pub fn shots(input: &[u8]) -> Vec<u8> {
    printed::<Shots>(input)
}
