//! An absolute increment that takes expired buckets out to avoid 10 or 12. The original does not; 01 says what is answered, and so what the
//! key holds.

use twin::calls::{Answer, Call, Op, Rooms};
use twin::rules::Settings;

use crate::expected::At;
use crate::state::of_key;

/// What is wrong with the answer, or with the key's state after it: all buckets that are expired to the tick are out, and the count is in.
pub fn fault(
    settings: &Settings,
    before: &Rooms,
    after: &Rooms,
    reading: u64,
    call: Call,
    answer: Answer,
) -> Option<String> {
    let Op::AbsoluteInc { count, .. } = call.op else {
        unreachable!("{:?} takes nothing out", call.op);
    };
    let party = call.caller.party;
    let series = of_key(&before.absolute, party, call.key).0.expect("a key with a bucket");
    let at = At { settings, reading };
    let live = at.live(&series.buckets);
    let due = (Answer::Allowed, Some(at.counted(series.limit, live, Some(count))));
    let told = (answer, of_key(&after.absolute, party, call.key).0);
    (told != due).then(|| format!("once the expired are out {due:?} is due, and {told:?} is told"))
}
