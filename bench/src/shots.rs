//! The contestants that take shots: a table before the suppressed limiter, whose increments of 1 the shots are.

use twin::gateway::{Shot, ShotAnswer, empty_table, make_table, shot};
use twin::parties::Caller;
use twin::room::empty_room;
use twin::rules::{ClockMode, Decision, Refusal, Settings};

use crate::contestants::{Contestant, allowed, answers, refused, suppressed};
use crate::load::{Clock, Increment, Limiter, Load};

/// A held shot's answer as a number.
fn held() -> u64 {
    4
}

/// A gateway's memory, empty.
fn memory(load: &Load) -> (Vec<u64>, Vec<u64>) {
    (empty_table(), empty_room(load.keys.len(), load.shape.ring))
}

fn caller(caller: crate::load::Caller) -> Caller {
    let crate::load::Caller { party, first, second } = caller;
    Caller { party, first, second }
}

pub struct TwinShots {
    table: Vec<u64>,
    room: Vec<u64>,
    settings: Settings,
}

impl TwinShots {
    pub fn new(load: &Load) -> Self {
        let (table, room) = memory(load);
        let crate::load::Settings { window, bucket, cache, factor, clock } = load.settings;
        let clock = match clock {
            Clock::Milliseconds => ClockMode::Milliseconds,
            Clock::Nanoseconds => ClockMode::Nanoseconds,
        };
        TwinShots { table, room, settings: Settings { window, bucket, cache, factor, clock } }
    }

    fn answer(result: Result<ShotAnswer, Refusal>) -> u64 {
        match result {
            Ok(ShotAnswer::Held) => held(),
            Ok(ShotAnswer::Decided(Decision::Suppressed { factor, admitted })) => {
                suppressed(factor.to_bits(), admitted)
            }
            Ok(ShotAnswer::Decided(_)) => allowed(),
            Err(Refusal(number)) => refused(number),
        }
    }
}

impl Contestant for TwinShots {
    fn name(&self) -> &'static str {
        "twin-shot"
    }

    fn clear(&mut self, _limiter: Limiter, load: &Load, reading: u64) {
        for caller in load.callers().into_iter().map(caller) {
            twin::shared::clear(&self.settings, &mut self.room, reading, caller).expect("a room");
        }
        assert!(make_table(&mut self.table));
    }

    fn run(&mut self, _limiter: Limiter, load: &Load, increments: &[Increment]) -> u64 {
        answers(load, increments, |given, key| {
            let Increment { reading, draw, number, .. } = *given;
            let (controller, number, rate) = (key.text.as_bytes(), u64::from(number), key.rate);
            let (settings, caller) = (&self.settings, caller(key.caller));
            let given = Shot { controller, number, rate, draw };
            Self::answer(shot(settings, &mut self.table, &mut self.room, reading, caller, given))
        })
    }

    fn room(&mut self, _limiter: Limiter) -> Option<&mut [u64]> {
        Some(&mut self.room)
    }
}

/// The archive of the proved gateway, by its C faces.
#[cfg(archive)]
pub mod archive {
    use super::*;

    unsafe extern "C" {
        fn frostaxle_gateway_shot(
            window: u64,
            bucket: u64,
            cache: u64,
            factor: f64,
            clock: u64,
            table: *mut u64,
            table_words: usize,
            room: *mut u64,
            room_words: usize,
            reading: u64,
            party: u64,
            first: u64,
            second: u64,
            controller: *const u8,
            bytes: usize,
            number: u64,
            rate: f64,
            draw: u64,
            row: *mut u64,
        ) -> u64;

        fn frostaxle_gateway_make_table(table: *mut u64, words: usize) -> u64;
    }

    pub struct ArchiveShots {
        table: Vec<u64>,
        room: Vec<u64>,
    }

    impl ArchiveShots {
        pub fn new(load: &Load) -> Self {
            let (table, room) = memory(load);
            ArchiveShots { table, room }
        }

        fn answer(code: u64, row: &[u64; 5]) -> u64 {
            match row[1] {
                1 => allowed(),
                3 => suppressed(row[2], row[3] == 1),
                4 => held(),
                _ => refused(code),
            }
        }
    }

    impl Contestant for ArchiveShots {
        fn name(&self) -> &'static str {
            "archive-shot"
        }

        fn clear(&mut self, limiter: Limiter, load: &Load, reading: u64) {
            crate::contestants::archive::clear(limiter, load, &mut self.room, reading);
            let (table, words) = (self.table.as_mut_ptr(), self.table.len());
            assert_eq!(unsafe { frostaxle_gateway_make_table(table, words) }, 0, "a table is made");
        }

        fn run(&mut self, _limiter: Limiter, load: &Load, increments: &[Increment]) -> u64 {
            let crate::load::Settings { window, bucket, cache, factor, clock } = load.settings;
            let (clock, mut row) = (clock as u64, [0; 5]);
            answers(load, increments, |given, key| {
                let Increment { reading, draw, number, .. } = *given;
                let Caller { party, first, second } = caller(key.caller);
                let code = unsafe {
                    frostaxle_gateway_shot(
                        window,
                        bucket,
                        cache,
                        factor,
                        clock,
                        self.table.as_mut_ptr(),
                        self.table.len(),
                        self.room.as_mut_ptr(),
                        self.room.len(),
                        reading,
                        party,
                        first,
                        second,
                        key.text.as_ptr(),
                        key.text.len(),
                        u64::from(number),
                        key.rate,
                        draw,
                        row.as_mut_ptr(),
                    )
                };
                Self::answer(code, &row)
            })
        }

        fn room(&mut self, _limiter: Limiter) -> Option<&mut [u64]> {
            Some(&mut self.room)
        }
    }
}
