//! A gateway over a table and a suppressed limiter's room that it owns, or that are lent to it.
use crate::answer::{self, Shot};
use crate::clock::Reading;
use crate::faces::{self, Row};
use crate::limiters::{Settings, Suppressed};
use crate::parties::{Party, Promises};
use crate::refusal::Refusal;
use crate::room::{Room, Table};
use std::borrow::BorrowMut;

/// Knows a controller's shots by their numbers, in front of a suppressed limiter. A controller numbers its shots from 1
/// upwards; one that hears nothing sends the same shot again under the same number:
///
/// ```
/// use frostaxle::{Gateway, Room, Settings, Shot, Table};
///
/// let settings = Settings::default();
/// let mut gateway = Gateway::new(settings, Table::new(), Room::for_settings(8, settings)?);
/// // reading 0 ms, shot 1, rate 1.5 per second, draw 0; the answer is lost on its way to the controller
/// assert_eq!(gateway.shot(0, b"ctl7", 1, 1.5, 0)?, Shot::Allowed);
/// // so it sends the shot again, and the survey has the point once
/// assert_eq!(gateway.shot(700, b"ctl7", 1, 1.5, 0)?, Shot::Held);
/// assert_eq!(gateway.suppressed().get(700, b"ctl7")?.total, 1);
/// # Ok::<(), frostaxle::Refusal>(())
/// ```
///
/// Of two parties each has its shots counted under keys of its own. The table knows a controller by its bytes alone: where
/// both parties may have a controller of the same name, or more than 64 together, let each have a table.
///
/// ```
/// use frostaxle::{Gateway, Party, Promises, Room, Settings, Shot, Table};
///
/// let promises = Promises { first: 6, second: 2 };
/// let settings = Settings::default();
/// let mut gateway = Gateway::new(settings, Table::new(), Room::for_settings(8, settings)?).promises(promises);
/// assert_eq!(gateway.shot(0, b"boat7", 1, 1.5, 0)?, Shot::Allowed);
/// assert_eq!(gateway.party(Party::Second).shot(0, b"gate1", 1, 1.5, 0)?, Shot::Allowed);
/// assert_eq!(gateway.party(Party::Second).suppressed().get(0, b"gate1")?.total, 1);
/// assert_eq!(gateway.suppressed().get(0, b"gate1")?.total, 0);
/// # Ok::<(), frostaxle::Refusal>(())
/// ```
#[derive(Clone, Debug)]
pub struct Gateway<T = Table, R = Room> {
    table: T,
    suppressed: Suppressed<R>,
}

impl<T: BorrowMut<Table>, R: BorrowMut<Room>> Gateway<T, R> {
    /// A gateway over a table and a room, of one party, the first, that is promised every slot. Settings, table and room are
    /// judged by each shot.
    pub fn new(settings: Settings, table: T, room: R) -> Self {
        Gateway { table, suppressed: Suppressed::new(settings, room) }
    }

    /// The same with these promises, which are given with each shot.
    pub fn promises(self, promises: Promises) -> Self {
        Gateway { suppressed: self.suppressed.promises(promises), ..self }
    }

    /// This gateway for shots of this party, over the same table and room and with the same promises.
    pub fn party(&mut self, party: Party) -> Gateway<&mut Table, &mut Room> {
        Gateway { table: self.table.borrow_mut(), suppressed: self.suppressed.party(party) }
    }

    pub fn table(&self) -> &Table {
        self.table.borrow()
    }

    pub fn room(&self) -> &Room {
        self.suppressed.room()
    }

    /// The limiter behind the table: none of its calls, cleanup and clear among them, touches what is held.
    pub fn suppressed(&mut self) -> &mut Suppressed<R> {
        &mut self.suppressed
    }

    pub fn into_parts(self) -> (T, R) {
        (self.table, self.suppressed.into_room())
    }

    /// A shot: held if `number`, 1 to 2^32 - 1, is the controller's last admitted one, and nothing changes. A higher one
    /// goes to the limiter, as [`Suppressed::inc`] with count 1, and is remembered only if admitted; so one that is turned
    /// away may be sent again under its number, until a later one is admitted.
    ///
    /// [`Refusal::BadNumber`], [`Refusal::OldNumber`] and [`Refusal::TableFull`] are judged first, in this order; then,
    /// unless the shot is held, what the increment judges, with the table beside the room. The reading is the increment's:
    /// a shot that is held is told so even at one that is too large.
    pub fn shot(
        &mut self,
        reading: impl Into<Reading>,
        controller: &[u8],
        number: u64,
        rate: f64,
        draw: u64,
    ) -> Result<Shot, Refusal> {
        let settings = self.suppressed.settings;
        let too_large = match reading.into().ticks(settings.clock_mode) {
            Ok(reading) => return self.ask(settings, reading, controller, number, rate, draw),
            Err(too_large) => too_large,
        };
        // without a window none gets to the limiter, and what number and table tell is told whatever the reading
        match self.ask(Settings { window_seconds: 0, ..settings }, 0, controller, number, rate, draw) {
            Err(Refusal::BadWindow) => Err(too_large),
            told => told,
        }
    }

    fn ask(
        &mut self,
        settings: Settings,
        reading: u64,
        controller: &[u8],
        number: u64,
        rate: f64,
        draw: u64,
    ) -> Result<Shot, Refusal> {
        let caller = self.suppressed.caller;
        let table: &mut Table = self.table.borrow_mut();
        let room: &mut Room = self.suppressed.room.borrow_mut();
        let (table, room) = (table.words_mut(), room.words_mut());
        let mut row: Row = [0; 5];
        // SAFETY: the face is proved to read and write only within the lent lengths, for any words and numbers. Each
        // pointer and length is of a live slice; `table`, `room` and `row` are lent mutably, so nothing overlaps them.
        unsafe {
            faces::frostaxle_gateway_shot(
                settings.window_seconds,
                settings.bucket_millis,
                settings.cache_millis,
                settings.hard_limit_factor,
                settings.clock_mode.number(),
                table.as_mut_ptr(),
                table.len(),
                room.as_mut_ptr(),
                room.len(),
                reading,
                caller.party.number(),
                caller.promises.first,
                caller.promises.second,
                controller.as_ptr(),
                controller.len(),
                number,
                rate,
                draw,
                &mut row,
            )
        };
        answer::shot(row)
    }

    /// Empties the table, and leaves the room: every controller may begin at 1 again.
    pub fn new_season(&mut self) -> Result<(), Refusal> {
        let table: &mut Table = self.table.borrow_mut();
        let table = table.words_mut();
        let mut row: Row = [0; 5];
        // SAFETY: as in `ask`.
        unsafe { faces::frostaxle_gateway_new_season(table.as_mut_ptr(), table.len(), &mut row) };
        answer::values(row).map(|_| ())
    }
}
