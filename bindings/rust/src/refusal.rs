//! The numbered refusals.
use std::error::Error;
use std::fmt;

/// Why a call was turned away. A refused call leaves the room, and a gateway's table, as they were. Of several the first is
/// told, in the order of their numbers; but [`BadParty`](Refusal::BadParty) and [`BadPromise`](Refusal::BadPromise) go
/// between [`LongKey`](Refusal::LongKey) and [`BadRate`](Refusal::BadRate), and those of a shot's number before all.
///
/// No call is refused with 13, and its number is not used again: it was a factor worked out at perceived rate zero, which
/// is 0 now. A [`Line`](crate::Line) may still tell it, as [`Other`](Refusal::Other)`(13)`.
#[derive(Clone, Copy, Debug, PartialEq, Eq, Hash)]
#[non_exhaustive]
pub enum Refusal {
    BadWindow,
    BadBucket,
    BadCache,
    BadFactor,
    /// The lengths of the room or the table are wrong; or the slot of the key is damaged (at a cleanup, any slot in use); or
    /// any slot in use is neither party's, which every call looks for, clear and the read-out too.
    BadRoom,
    ClockWentBack,
    LongKey,
    BadRate,
    BadDraw,
    TotalTooLarge,
    /// A slot is needed, and the party already holds as many as it is promised. Others may be free: they are promised to
    /// the other party, or to none. A party that is promised every slot meets this where all are in use.
    NoFreeSlot,
    /// A bucket must be added to the key's ring, which is full. It lasts at most until the key's oldest bucket is out
    /// of the window. A room of [`Room::for_settings`](crate::Room::for_settings) never meets it while it has those
    /// settings; one with shorter rings may.
    RingFull,
    /// A number that stands for no comparator or preservation, which [`Comparator`](crate::Comparator) and
    /// [`Preservation`](crate::Preservation) cannot say; or a line that does not read, since `desk` prints none such. A
    /// [`Line`](crate::Line) tells it of a line that `desk` was given and does not take.
    NoCall,
    /// A party other than the two, which [`Party`](crate::Party) cannot say.
    BadParty,
    /// The promises together pass the room's slots, or either party holds more slots than it is promised.
    BadPromise,
    BadNumber,
    OldNumber,
    TableFull,
    /// A reading given as a [`Duration`](std::time::Duration) has 2^64 ticks or more. The binding tells this itself, so it
    /// has no number; it goes before all refusals but those of a shot's own number and table.
    ReadingTooLarge,
    /// The settings need rings of more than 512 buckets, which no room has: what
    /// [`Room::for_settings`](crate::Room::for_settings) alone tells. Take longer buckets or a shorter window; or
    /// make a room by [`Room::new`](crate::Room::new) and live with [`RingFull`](Refusal::RingFull). The binding
    /// tells this itself, so it has no number.
    RingTooLong,
    /// A number, or with 0 a case of an answer, that this binding has no name for: it was made for another archive. 13
    /// is one that a [`Line`](crate::Line) tells.
    Other(u64),
}

impl Refusal {
    const NAMED: [Refusal; 18] = [
        Refusal::BadWindow,
        Refusal::BadBucket,
        Refusal::BadCache,
        Refusal::BadFactor,
        Refusal::BadRoom,
        Refusal::ClockWentBack,
        Refusal::LongKey,
        Refusal::BadRate,
        Refusal::BadDraw,
        Refusal::TotalTooLarge,
        Refusal::NoFreeSlot,
        Refusal::RingFull,
        Refusal::NoCall,
        Refusal::BadParty,
        Refusal::BadPromise,
        Refusal::BadNumber,
        Refusal::OldNumber,
        Refusal::TableFull,
    ];

    pub(crate) fn of(number: u64) -> Refusal {
        Refusal::NAMED.into_iter().find(|refusal| refusal.number() == number).unwrap_or(Refusal::Other(number))
    }

    /// The refusal's number, 0 for one that has none.
    pub fn number(self) -> u64 {
        match self {
            Refusal::BadWindow => 1,
            Refusal::BadBucket => 2,
            Refusal::BadCache => 3,
            Refusal::BadFactor => 4,
            Refusal::BadRoom => 5,
            Refusal::ClockWentBack => 6,
            Refusal::LongKey => 7,
            Refusal::BadRate => 8,
            Refusal::BadDraw => 9,
            Refusal::TotalTooLarge => 10,
            Refusal::NoFreeSlot => 11,
            Refusal::RingFull => 12,
            Refusal::NoCall => 14,
            Refusal::BadParty => 15,
            Refusal::BadPromise => 16,
            Refusal::BadNumber => 19,
            Refusal::OldNumber => 20,
            Refusal::TableFull => 21,
            Refusal::ReadingTooLarge | Refusal::RingTooLong => 0,
            Refusal::Other(number) => number,
        }
    }

    fn words(self) -> &'static str {
        match self {
            Refusal::BadWindow => "the window is not 1 to 33554432 seconds",
            Refusal::BadBucket => "the bucket is not 1 to 4294967296 milliseconds",
            Refusal::BadCache => "the cache period is not 1 to 4294967296 milliseconds",
            Refusal::BadFactor => "the hard limit factor is not a finite number of at least 1",
            Refusal::BadRoom => {
                "the lengths of room or table are wrong, its words of the key are damaged, or a slot is neither party's"
            }
            Refusal::ClockWentBack => "the reading is below that of an earlier call",
            Refusal::LongKey => "the key is longer than 32 bytes",
            Refusal::BadRate => "the rate is not a finite number of at least 2^-900 per second",
            Refusal::BadDraw => "the draw is over 2^53 - 1",
            Refusal::TotalTooLarge => "the key's total would pass 2^53",
            Refusal::NoFreeSlot => "a slot is needed, and the party holds as many as it is promised",
            Refusal::RingFull => "the key's ring of buckets is full",
            Refusal::NoCall => "a number that stands for no comparator or preservation, or a line that does not read",
            Refusal::BadParty => "the party is neither 1 nor 2",
            Refusal::BadPromise => {
                "the promises together pass the room's slots, or a party holds more than it is promised"
            }
            Refusal::BadNumber => "the shot's number is not 1 to 2^32 - 1",
            Refusal::OldNumber => "the shot's number is below the last admitted of its controller",
            Refusal::TableFull => "the controller is not in the table, which has 64",
            Refusal::ReadingTooLarge => "the reading is a time of 2^64 ticks or more",
            Refusal::RingTooLong => {
                "the settings need rings of more than 512 buckets: take longer buckets or a shorter window"
            }
            Refusal::Other(13) => "a refusal that no call gives any more",
            Refusal::Other(_) => "an answer that this binding does not know",
        }
    }
}

impl fmt::Display for Refusal {
    fn fmt(&self, f: &mut fmt::Formatter<'_>) -> fmt::Result {
        match self {
            Refusal::ReadingTooLarge | Refusal::RingTooLong => f.write_str(self.words()),
            _ => write!(f, "{} (refusal {})", self.words(), self.number()),
        }
    }
}

impl Error for Refusal {}

#[cfg(test)]
mod tests {
    use super::*;

    #[test]
    fn numbers_and_words() {
        for number in (1..=12).chain(14..=16).chain(19..=21) {
            let refusal = Refusal::of(number);
            assert_ne!(refusal, Refusal::Other(number));
            assert_eq!(refusal.number(), number);
            assert!(refusal.to_string().ends_with(&format!("(refusal {number})")));
        }
        for number in [0, 13, 17, 18, 22] {
            assert_eq!(Refusal::of(number), Refusal::Other(number));
        }
        for (refusal, words) in [
            (Refusal::ReadingTooLarge, "the reading is a time of 2^64 ticks or more"),
            (
                Refusal::RingTooLong,
                "the settings need rings of more than 512 buckets: take longer buckets or a shorter window",
            ),
        ] {
            assert_eq!((refusal.number(), refusal.to_string().as_str()), (0, words));
        }
    }
}
