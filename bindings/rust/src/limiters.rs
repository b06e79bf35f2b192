//! The limiters over rooms that they own, or that are lent to them.
use crate::answer::{self, Bucket, Comparator, Decision, Preservation, SetOutcome, Snapshot};
use crate::clock::{ClockMode, Reading};
use crate::faces::{self, Row};
use crate::parties::{Caller, Party, Promises};
use crate::refusal::Refusal;
use crate::room::Room;
use std::borrow::BorrowMut;

/// A room's settings: the same for its whole life. By default a window of 30 s, buckets and a cache period of 100 ms, a
/// hard limit that is the soft one, and readings in milliseconds. The window was 10 s before: a room that was kept from
/// then goes on with `window_seconds: 10`.
#[derive(Clone, Copy, Debug, PartialEq)]
pub struct Settings {
    /// How far back counts are added up: 1 to 33,554,432 seconds.
    pub window_seconds: u64,
    /// Counts this close to the newest bucket's start join it: 1 to 4,294,967,296 milliseconds.
    pub bucket_millis: u64,
    /// How long a suppressed key's factor is used again: 1 to 4,294,967,296 milliseconds.
    pub cache_millis: u64,
    /// The hard limit over the soft one, finite and at least 1.
    pub hard_limit_factor: f64,
    /// What a tick of readings and bucket times is.
    pub clock_mode: ClockMode,
}

impl Settings {
    /// The same with another clock mode.
    pub fn clock_mode(self, clock_mode: ClockMode) -> Settings {
        Settings { clock_mode, ..self }
    }

    /// How many buckets a ring must have so that no call on its room is refused with [`Refusal::RingFull`], in either
    /// clock mode: `1000 * window_seconds / (bucket_millis + 1) + 1`. It is the least such number: with rings of one
    /// bucket less a call may be refused. This is promised of a room that was made empty and has these settings for
    /// its whole life.
    ///
    /// [`Room::for_settings`] makes a room with such rings, unless the number is over 512, which no ring has. Settings
    /// out of range are refused.
    ///
    /// ```
    /// use frostaxle::{Refusal, Settings};
    ///
    /// assert_eq!(Settings::default().sufficient_ring(), Ok(298));
    /// assert_eq!(Settings { window_seconds: 10, ..Settings::default() }.sufficient_ring(), Ok(100));
    /// // a bucket longer than the window
    /// assert_eq!(Settings { bucket_millis: 40_000, ..Settings::default() }.sufficient_ring(), Ok(1));
    /// assert_eq!(Settings { window_seconds: 0, ..Settings::default() }.sufficient_ring(), Err(Refusal::BadWindow));
    /// ```
    pub fn sufficient_ring(self) -> Result<u64, Refusal> {
        let mut row: Row = [0; 5];
        // SAFETY: takes numbers, and writes only `row`, which is lent to this call alone.
        unsafe {
            faces::frostaxle_sufficient_ring(
                self.window_seconds,
                self.bucket_millis,
                self.cache_millis,
                self.hard_limit_factor,
                self.clock_mode.number(),
                &mut row,
            )
        };
        let [buckets, _, _] = answer::values(row)?;
        Ok(buckets)
    }
}

impl Default for Settings {
    fn default() -> Self {
        Settings {
            window_seconds: 30,
            bucket_millis: 100,
            cache_millis: 100,
            hard_limit_factor: 1.0,
            clock_mode: ClockMode::Milliseconds,
        }
    }
}

/// Calls a face with the settings, the room and the caller of `$self` and a reading, and gives the answer row. A reading that
/// is too large is refused at once.
macro_rules! call {
    ($self:ident, $face:ident, $reading:expr $(, $own:expr)*) => {{
        let (settings, caller) = ($self.settings, $self.caller);
        let reading = Reading::ticks($reading.into(), settings.clock_mode)?;
        let room: &mut Room = $self.room.borrow_mut();
        let room = room.words_mut();
        let mut row: Row = [0; 5];
        // SAFETY: the face is proved to read and write only within the lent lengths, for any words and numbers. Each
        // pointer and length is of a live slice; `room` and `row` are lent mutably, so nothing overlaps them.
        unsafe {
            faces::$face(
                settings.window_seconds,
                settings.bucket_millis,
                settings.cache_millis,
                settings.hard_limit_factor,
                settings.clock_mode.number(),
                room.as_mut_ptr(),
                room.len(),
                reading,
                caller.party.number(),
                caller.promises.first,
                caller.promises.second,
                $($own,)*
                &mut row,
            )
        };
        row
    }};
}

/// The calls that both limiters have, under their faces' names.
macro_rules! shared {
    ($limiter:ident, $set_rate_limit:ident, $delete:ident, $clear:ident, $set_if:ident, $preserve:ident, $cleanup:ident, $bucket:ident) => {
        impl<R: BorrowMut<Room>> $limiter<R> {
            /// A limiter over a room, of one party, the first, that is promised every slot. Settings and room are judged by
            /// each call.
            pub fn new(settings: Settings, room: R) -> Self {
                let caller = Caller::alone(room.borrow().slots());
                $limiter { settings, room, caller }
            }

            /// The same with these promises, which are given with each call: keep them for the room's whole life.
            pub fn promises(self, promises: Promises) -> Self {
                $limiter { caller: Caller { promises, ..self.caller }, ..self }
            }

            /// This limiter for calls of this party, over the same room and with the same promises.
            pub fn party(&mut self, party: Party) -> $limiter<&mut Room> {
                let caller = Caller { party, ..self.caller };
                $limiter { settings: self.settings, room: self.room.borrow_mut(), caller }
            }

            pub fn room(&self) -> &Room {
                self.room.borrow()
            }

            pub fn into_room(self) -> R {
                self.room
            }

            /// A key's buckets, oldest first, expired ones that are still stored too; none for an unknown key.
            pub fn buckets(&self, key: &[u8]) -> Result<Vec<Bucket>, Refusal> {
                let mut buckets = Vec::new();
                while let Some(bucket) = self.bucket(key, buckets.len())? {
                    buckets.push(bucket);
                }
                Ok(buckets)
            }

            fn bucket(&self, key: &[u8], at: usize) -> Result<Option<Bucket>, Refusal> {
                let settings = self.settings;
                let room = self.room().words();
                let mut row: Row = [0; 5];
                // SAFETY: as in `call`; the room is only read.
                unsafe {
                    faces::$bucket(
                        settings.window_seconds,
                        settings.bucket_millis,
                        settings.cache_millis,
                        settings.hard_limit_factor,
                        settings.clock_mode.number(),
                        room.as_ptr(),
                        room.len(),
                        self.caller.party.number(),
                        key.as_ptr(),
                        key.len(),
                        at,
                        &mut row,
                    )
                };
                answer::bucket(row)
            }

            /// Gives a known key another limit, and its old rate back; none for an unknown key.
            pub fn set_rate_limit(
                &mut self,
                reading: impl Into<Reading>,
                key: &[u8],
                rate: f64,
            ) -> Result<Option<f64>, Refusal> {
                let row = call!(self, $set_rate_limit, reading, key.as_ptr(), key.len(), rate);
                Ok(answer::known(row)?.map(f64::from_bits))
            }

            /// Forgets a key, and gives what it had; none for an unknown key.
            pub fn delete(&mut self, reading: impl Into<Reading>, key: &[u8]) -> Result<Option<u64>, Refusal> {
                answer::known(call!(self, $delete, reading, key.as_ptr(), key.len()))
            }

            /// Forgets every key of the caller's party; the other party's stay.
            pub fn clear(&mut self, reading: impl Into<Reading>) -> Result<(), Refusal> {
                answer::values(call!(self, $clear, reading)).map(|_| ())
            }

            /// If the comparator is met, sets the key's limit and its total, in one bucket; count 0 forgets the key.
            pub fn set_if(
                &mut self,
                reading: impl Into<Reading>,
                key: &[u8],
                rate: f64,
                count: u64,
                comparator: Comparator,
            ) -> Result<SetOutcome, Refusal> {
                let (number, operand) = comparator.numbers();
                answer::outcome(call!(self, $set_if, reading, key.as_ptr(), key.len(), rate, count, number, operand))
            }

            /// The same, but the buckets stay: the difference is added to one end, or taken from the other.
            pub fn set_if_preserve_history(
                &mut self,
                reading: impl Into<Reading>,
                key: &[u8],
                rate: f64,
                count: u64,
                comparator: Comparator,
                preservation: Preservation,
            ) -> Result<SetOutcome, Refusal> {
                let (number, operand) = comparator.numbers();
                answer::outcome(call!(
                    self,
                    $preserve,
                    reading,
                    key.as_ptr(),
                    key.len(),
                    rate,
                    count,
                    number,
                    operand,
                    preservation.number()
                ))
            }

            /// Forgets keys without a bucket, or whose newest one is older than `stale` milliseconds: of both parties, whichever
            /// calls.
            pub fn cleanup(&mut self, reading: impl Into<Reading>, stale: u64) -> Result<(), Refusal> {
                answer::values(call!(self, $cleanup, reading, stale)).map(|_| ())
            }
        }
    };
}

/// Lets a key through while its total is below its limit, rate * window. `R` is a [`Room`] of its own, or a lent `&mut Room`.
#[derive(Clone, Debug)]
pub struct Absolute<R = Room> {
    settings: Settings,
    room: R,
    caller: Caller,
}

impl<R: BorrowMut<Room>> Absolute<R> {
    /// Counts `count` for a key, where it is allowed.
    pub fn inc(&mut self, reading: impl Into<Reading>, key: &[u8], rate: f64, count: u64) -> Result<Decision, Refusal> {
        answer::decision(call!(self, frostaxle_absolute_inc, reading, key.as_ptr(), key.len(), rate, count))
    }

    /// What an increment would be told now, without counting.
    pub fn is_allowed(&mut self, reading: impl Into<Reading>, key: &[u8]) -> Result<Decision, Refusal> {
        answer::decision(call!(self, frostaxle_absolute_is_allowed, reading, key.as_ptr(), key.len()))
    }

    /// A key's live total, 0 for an unknown key.
    pub fn get(&mut self, reading: impl Into<Reading>, key: &[u8]) -> Result<u64, Refusal> {
        let [total, _, _] = answer::values(call!(self, frostaxle_absolute_get, reading, key.as_ptr(), key.len()))?;
        Ok(total)
    }
}

shared!(
    Absolute,
    frostaxle_absolute_set_rate_limit,
    frostaxle_absolute_delete,
    frostaxle_absolute_clear,
    frostaxle_absolute_set_if,
    frostaxle_absolute_set_if_preserve_history,
    frostaxle_absolute_cleanup,
    frostaxle_absolute_bucket
);

/// Lets a share of calls through between a soft limit, rate * window, and a hard one. `R` is a [`Room`] of its own, or a
/// lent `&mut Room`.
#[derive(Clone, Debug)]
pub struct Suppressed<R = Room> {
    pub(crate) settings: Settings,
    pub(crate) room: R,
    pub(crate) caller: Caller,
}

impl<R: BorrowMut<Room>> Suppressed<R> {
    /// Counts, and decides by the forecast and `draw`, evenly drawn from 0 to 2^53 - 1.
    pub fn inc(
        &mut self,
        reading: impl Into<Reading>,
        key: &[u8],
        rate: f64,
        count: u64,
        draw: u64,
    ) -> Result<Decision, Refusal> {
        answer::decision(call!(self, frostaxle_suppressed_inc, reading, key.as_ptr(), key.len(), rate, count, draw))
    }

    /// A key's live totals and its factor; zeros for an unknown key.
    pub fn get(&mut self, reading: impl Into<Reading>, key: &[u8]) -> Result<Snapshot, Refusal> {
        answer::snapshot(call!(self, frostaxle_suppressed_get, reading, key.as_ptr(), key.len()))
    }

    /// A key's factor, which is cached; an unknown key takes a slot for it.
    pub fn get_suppression_factor(&mut self, reading: impl Into<Reading>, key: &[u8]) -> Result<f64, Refusal> {
        let [factor, _, _] =
            answer::values(call!(self, frostaxle_suppressed_get_suppression_factor, reading, key.as_ptr(), key.len()))?;
        Ok(f64::from_bits(factor))
    }
}

shared!(
    Suppressed,
    frostaxle_suppressed_set_rate_limit,
    frostaxle_suppressed_delete,
    frostaxle_suppressed_clear,
    frostaxle_suppressed_set_if,
    frostaxle_suppressed_set_if_preserve_history,
    frostaxle_suppressed_cleanup,
    frostaxle_suppressed_bucket
);

/// Both limiters under the same settings, and their common cleanup.
#[derive(Clone, Debug)]
pub struct Provider {
    absolute: Absolute,
    suppressed: Suppressed,
}

impl Provider {
    pub fn new(settings: Settings, absolute: Room, suppressed: Room) -> Provider {
        Provider { absolute: Absolute::new(settings, absolute), suppressed: Suppressed::new(settings, suppressed) }
    }

    /// The same with these promises of each room, which are given with each call.
    pub fn promises(self, absolute: Promises, suppressed: Promises) -> Provider {
        Provider { absolute: self.absolute.promises(absolute), suppressed: self.suppressed.promises(suppressed) }
    }

    pub fn absolute(&mut self) -> &mut Absolute {
        &mut self.absolute
    }

    pub fn suppressed(&mut self) -> &mut Suppressed {
        &mut self.suppressed
    }

    /// Cleans both rooms or neither, whichever party's the keys are. A refusal is the first, in their order, that either room
    /// meets.
    pub fn cleanup(&mut self, reading: impl Into<Reading>, stale: u64) -> Result<(), Refusal> {
        let (settings, party) = (self.absolute.settings, self.absolute.caller.party);
        let (of_absolute, of_suppressed) = (self.absolute.caller.promises, self.suppressed.caller.promises);
        let reading = reading.into().ticks(settings.clock_mode)?;
        let absolute = self.absolute.room.words_mut();
        let suppressed = self.suppressed.room.words_mut();
        let mut row: Row = [0; 5];
        // SAFETY: as in `call`; the rooms are two, each lent mutably.
        unsafe {
            faces::frostaxle_provider_cleanup(
                settings.window_seconds,
                settings.bucket_millis,
                settings.cache_millis,
                settings.hard_limit_factor,
                settings.clock_mode.number(),
                absolute.as_mut_ptr(),
                absolute.len(),
                suppressed.as_mut_ptr(),
                suppressed.len(),
                reading,
                party.number(),
                of_absolute.first,
                of_absolute.second,
                of_suppressed.first,
                of_suppressed.second,
                stale,
                &mut row,
            )
        };
        answer::values(row).map(|_| ())
    }
}
