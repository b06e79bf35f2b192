//! Which words a call that is not refused may change, beside what the comparison of states shows.

use twin::calls::{Call, Op, Rooms};
use twin::rules::Kind;

use crate::expected::{ENTRY, HEADER, find, holder, kind, set_holder};

const FIXED: usize = 7;

/// The reading is stored, and nothing changes but the key's slot, the caller's holders in a clear, or holders and use words in a cleanup.
pub fn are_right(before: &Rooms, after: &Rooms, reading: u64, call: Call) -> bool {
    [Kind::Absolute, Kind::Suppressed].into_iter().all(|room| {
        let (before, after) = (before.of(room), after.of(room));
        let is_concerned = room == kind(&call.op) || matches!(call.op, Op::CleanupBoth { .. });
        if !is_concerned || matches!(call.op, Op::ReadOut { .. }) {
            return before == after;
        }
        let is_header = before.len() == after.len() && before[..2] == after[..2];
        let is_rest = is_beside(before, after)
            && match call.op {
                Op::Clear { .. } => is_cleared(before, after, call.caller.party),
                Op::Cleanup { .. } | Op::CleanupBoth { .. } => is_cleaned(before, after),
                _ => is_framed(before, after, call, reading),
            };
        is_header && after[2] == reading && is_rest
    })
}

/// A slot's holder, directory entry and body.
#[derive(Clone, Copy, PartialEq)]
struct Slot<'a> {
    holder: u64,
    entry: &'a [u64],
    body: &'a [u64],
}

fn slot(room: &[u64], at: usize) -> Slot<'_> {
    let (slots, ring) = (room[0] as usize, room[1] as usize);
    let size = FIXED + 3 * ring;
    let start = HEADER + ENTRY * slots + size * at;
    Slot {
        holder: holder(room, at),
        entry: &room[HEADER + ENTRY * at..][..ENTRY],
        body: &room[start..start + size],
    }
}

/// The holders' bits of slots that the room does not have stay.
fn is_beside(before: &[u64], after: &[u64]) -> bool {
    (before[0] as usize..64).all(|at| holder(before, at) == holder(after, at))
}

/// Other slots keep their words; a new slot is the lowest free one.
fn is_framed(before: &[u64], after: &[u64], call: Call, reading: u64) -> bool {
    let slots = before[0] as usize;
    let lowest_free = (0..slots).find(|at| slot(before, *at).holder == 0);
    let party = call.caller.party;
    let own = find(before, party, call.key).or(lowest_free);
    (0..slots).all(|at| {
        let (old, new) = (slot(before, at), slot(after, at));
        old == new || (Some(at) == own && is_own_change(old, new, reading, party))
    })
}

/// What the words of the key's own slot may do, by what the slot held before and holds after.
fn is_own_change(old: Slot, new: Slot, reading: u64, party: u64) -> bool {
    if new.holder == 0 {
        return old.entry == new.entry && old.body == new.body;
    }
    let was = if old.holder == 0 { 0 } else { old.entry[0] };
    let is = new.entry[0];
    let ring = (old.body.len() - FIXED) / 3;
    let cell = |slot: Slot, at: usize| [0, 1, 2].map(|part| slot.body[FIXED + part * ring + at]);
    let changed = (0..ring).filter(|at| cell(old, *at) != cell(new, *at)).count();
    let (head, factor, time) = (new.body[3], new.body[5], new.body[6]);
    let is_new_series = was & 1 == 0 && is & 1 == 1;
    let is_cached_now = is & 2 == 2 && time == reading;
    let keeps_factor = match was {
        0 => (factor, time) == (0, 0),
        _ => old.body[5..7] == new.body[5..7],
    };
    // A lone factor that is cached anew blanks the words of the series that is not there.
    let is_blank = new.body[..5] == [0; 5];
    let keeps_series = match was {
        0 => is_blank,
        _ if old.body[5..7] != new.body[5..7] => is_blank,
        _ => is_blank || old.body[..5] == new.body[..5],
    };
    new.holder == party
        && changed <= 1
        && (!is_new_series || head == 0)
        && (keeps_factor || is_cached_now)
        && (is & 1 == 1 || (keeps_series && changed == 0))
        && (was == 0 || old.entry[1..] == new.entry[1..])
}

/// A clear takes the caller's slots from it, and no word else changes.
fn is_cleared(before: &[u64], after: &[u64], party: u64) -> bool {
    let (slots, mut due) = (before[0] as usize, before.to_vec());
    for at in (0..slots).filter(|at| holder(before, *at) == party) {
        set_holder(&mut due, at, 0);
    }
    due[2] = after[2];
    due == after
}

/// Of a slot in use a cleanup changes the holder, to nobody, or lowers the use.
fn is_cleaned(before: &[u64], after: &[u64]) -> bool {
    (0..before[0] as usize).all(|at| {
        let (old, new) = (slot(before, at), slot(after, at));
        let is_freed = new == Slot { holder: 0, ..old };
        let is_lowered = old.holder != 0
            && new.holder == old.holder
            && (1..old.entry[0]).contains(&new.entry[0])
            && new.entry[1..] == old.entry[1..]
            && new.body == old.body;
        old == new || is_freed || is_lowered
    })
}
