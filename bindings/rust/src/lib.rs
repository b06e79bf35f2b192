//! Two rate limiters over rooms of plain words. The limiters are proved in Rattle and come as a static archive; here are
//! safe types over its C face.
//!
//! ```
//! use frostaxle::{Absolute, Decision, Room, Settings};
//!
//! let settings = Settings::default();
//! // for up to 8 keys
//! let mut limiter = Absolute::new(settings, Room::for_settings(8, settings)?);
//! // reading 0 ms, rate 1.5 per second, count 1
//! assert_eq!(limiter.inc(0, b"ctl7", 1.5, 1)?, Decision::Allowed);
//! assert_eq!(limiter.get(50, b"ctl7")?, 1);
//! # Ok::<(), frostaxle::Refusal>(())
//! ```
//!
//! A reading is your clock, from any start: a [`Duration`](std::time::Duration), or a number of ticks, which are
//! milliseconds unless the settings' [`ClockMode`] says nanoseconds. In one room it may not go back. A key is 0 to 32
//! bytes; a longer one is refused. A rate is per second; a key's limit is stored at its first increment or set. Every
//! call returns: with its answer, or with a [`Refusal`], and then the room is as it was.
//!
//! A room has a slot for each key, and each slot a ring of buckets. [`Room::for_settings`] makes the rings as long as
//! the settings need, so that none is ever too short. With [`Room::new`] their length is yours to choose, and a call
//! that needs one more bucket than a ring has is refused with [`Refusal::RingFull`].
//!
//! Two parties may share a room. Each is promised a number of its slots, and its keys are its own: the same bytes under the
//! other party are another key, and a clear forgets the caller's alone. While the [`Promises`] stay the same, nothing that
//! one [`Party`] does alters a decision, a total or a refusal of a slot of the other; they share cleanups and the clock.
//! Unless it is said, a call is the first party's, which is promised every slot.
//!
//! ```
//! use frostaxle::{Absolute, Decision, Party, Promises, Refusal, Room, Settings};
//!
//! // of 8 slots the survey, the first party, is promised 6, and the lock keepers 2
//! let promises = Promises { first: 6, second: 2 };
//! let settings = Settings::default();
//! let mut survey = Absolute::new(settings, Room::for_settings(8, settings)?).promises(promises);
//! assert_eq!(survey.inc(0, b"gate1", 1.5, 1)?, Decision::Allowed);
//!
//! let mut locks = survey.party(Party::Second);
//! assert_eq!(locks.get(0, b"gate1")?, 0);
//! locks.inc(0, b"gate1", 1.5, 7)?;
//! locks.inc(0, b"gate2", 1.5, 1)?;
//! // it holds as many as it is promised, and the others are not its own
//! assert_eq!(locks.inc(0, b"gate3", 1.5, 1), Err(Refusal::NoFreeSlot));
//! locks.clear(0)?;
//! assert_eq!(locks.get(0, b"gate1")?, 0);
//!
//! assert_eq!(survey.get(0, b"gate1")?, 1);
//! # Ok::<(), frostaxle::Refusal>(())
//! ```
//!
//! A [`Gateway`] knows a controller's shots by their numbers: one that is sent again because its answer was lost is not
//! admitted twice.
//!
//! What the program `desk` prints is read back as [`Line`]s, one meaning for each: a line prints as the bytes that it was
//! read from, and any that `desk` does not print is refused with [`Refusal::NoCall`].
//!
//! Building: `./archive` in the repository makes the archive. With cargo, `cargo build --offline` here finds it, or
//! in the folder that `FROSTAXLE_LIB` names. With rustc alone, in the repository:
//!
//! ```text
//! rustc --edition 2021 -O --crate-type rlib --crate-name frostaxle -L native=target/staticlib \
//!     --out-dir target bindings/rust/src/lib.rs
//! rustc --edition 2021 -O --extern frostaxle=target/libfrostaxle.rlib -L native=target/staticlib \
//!     --out-dir target bindings/rust/examples/gateway.rs
//! ```
mod answer;
mod clock;
mod faces;
mod gateway;
mod limiters;
mod line;
mod parties;
mod refusal;
mod room;

pub use answer::{Bucket, Comparator, Decision, Preservation, SetOutcome, Shot, Snapshot};
pub use clock::{ClockMode, Reading};
pub use gateway::Gateway;
pub use limiters::{Absolute, Provider, Settings, Suppressed};
pub use line::{Line, Told, Totals};
pub use parties::{Party, Promises};
pub use refusal::Refusal;
pub use room::{Room, Table};
