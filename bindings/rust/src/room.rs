//! A room and a gateway's table that own their words.
use crate::faces;
use crate::limiters::Settings;
use crate::refusal::Refusal;

/// What a room and a table have alike.
macro_rules! words {
    ($owner:ident) => {
        impl $owner {
            /// Of words from elsewhere, whatever they are: calls judge them, and refuse what is damaged.
            pub fn from_words(words: impl Into<Box<[u64]>>) -> $owner {
                $owner { words: words.into() }
            }

            pub fn words(&self) -> &[u64] {
                &self.words
            }

            pub fn into_words(self) -> Box<[u64]> {
                self.words
            }

            pub(crate) fn words_mut(&mut self) -> &mut [u64] {
                &mut self.words
            }
        }
    };
}

/// Everything that one limiter knows, of one party or of two, in plain words without pointers: it may be copied, stored and read
/// back, by the version that wrote it (where `docs/CHANGES.md` says that words moved, an old room may be read as something else).
#[derive(Clone, Debug, PartialEq, Eq)]
pub struct Room {
    words: Box<[u64]>,
}

impl Room {
    /// How many words a room of 1 to 64 slots with rings of 1 to 512 buckets has: 5 + slots * (6 + 7 + 3 * ring).
    pub fn words_for(slots: u64, ring: u64) -> Option<usize> {
        // SAFETY: takes and gives numbers.
        match unsafe { faces::frostaxle_room_words(slots, ring) } {
            0 => None,
            words => Some(words),
        }
    }

    /// An empty room, with a slot for each of `slots` keys, and rings as long as these settings need: while all calls
    /// on it come with these settings, none is refused with [`Refusal::RingFull`].
    ///
    /// ```
    /// use frostaxle::{Refusal, Room, Settings};
    ///
    /// let settings = Settings::default();
    /// assert_eq!(Room::for_settings(8, settings)?, Room::new(8, 298)?);
    /// // 589 buckets, and a ring has at most 512
    /// let settings = Settings { bucket_millis: 50, ..settings };
    /// assert_eq!(Room::for_settings(8, settings), Err(Refusal::RingTooLong));
    /// // longer buckets, or a shorter window
    /// let settings = Settings { window_seconds: 10, ..settings };
    /// assert_eq!(Room::for_settings(8, settings)?, Room::new(8, 197)?);
    /// # Ok::<(), Refusal>(())
    /// ```
    ///
    /// Settings out of range are refused with their own refusal; then, with [`Refusal::RingTooLong`], those that need
    /// longer rings than a room can have; then, with [`Refusal::BadRoom`], `slots` that are not 1 to 64.
    pub fn for_settings(slots: u64, settings: Settings) -> Result<Room, Refusal> {
        let ring = settings.sufficient_ring()?;
        // a ring that is too long for one slot is too long for any number of them
        Room::words_for(1, ring).ok_or(Refusal::RingTooLong)?;
        Room::new(slots, ring)
    }

    /// An empty room, with a slot for each of `slots` keys and `ring` buckets to a slot. With fewer of them than
    /// [`Settings::sufficient_ring`] says a call may be refused with [`Refusal::RingFull`].
    pub fn new(slots: u64, ring: u64) -> Result<Room, Refusal> {
        let len = Room::words_for(slots, ring).ok_or(Refusal::BadRoom)?;
        let mut words = vec![0; len].into_boxed_slice();
        // SAFETY: pointer and length are of a live slice that is lent to this call alone.
        match unsafe { faces::frostaxle_make(words.as_mut_ptr(), words.len(), slots, ring) } {
            0 => Ok(Room { words }),
            number => Err(Refusal::of(number)),
        }
    }

    /// What its first word says, 0 without one: of damaged words any number, which calls refuse.
    pub(crate) fn slots(&self) -> u64 {
        self.words.first().copied().unwrap_or(0)
    }
}

words!(Room);

/// The last admitted shot number of up to 64 controllers, in plain words: it may be copied, stored and read back as a
/// [`Room`] may. Only shots of a [`Gateway`](crate::Gateway) write numbers into it, and only a new season takes them out. It
/// knows a controller by its bytes alone, whichever party sends the shot.
#[derive(Clone, Debug, PartialEq, Eq)]
pub struct Table {
    words: Box<[u64]>,
}

impl Table {
    /// How many words a table has.
    pub const WORDS: usize = 389;

    /// An empty table: it knows no controller.
    pub fn new() -> Table {
        let mut words = vec![0; Table::WORDS].into_boxed_slice();
        // SAFETY: pointer and length are of a live slice that is lent to this call alone. The length is a table's, so
        // nothing is refused.
        unsafe { faces::frostaxle_gateway_make_table(words.as_mut_ptr(), words.len()) };
        Table { words }
    }
}

impl Default for Table {
    fn default() -> Self {
        Table::new()
    }
}

words!(Table);
