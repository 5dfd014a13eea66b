//! The third demand, asserted from the bytes of both stores and the trial's own history: accepted, let go and held are
//! read without those that a Send has passed over, which keep their slots until an ACK passes them.

use super::end::End;
use super::habits::Habits;
use super::index;
use super::lists::{check_agreed, check_withdrawing};
use super::requests::tell_none;
use super::require;
use super::tally::Tally;
use crate::stored::{steps_after, steps_between, Stored, SLOTS, STOPPED, STOPPING};

/// What both ends have in their stores.
pub struct Stores([Stored; 2]);

impl Stores {
    /// Reads both stores; none may hold other bytes than its end's memory.
    pub fn read(ends: &[End; 2]) -> Result<Self, String> {
        let read = |end: &End| {
            let bytes = end.store.read().map_err(|error| error.to_string())?;
            if bytes != end.image {
                return Err("memory and store differ: a call changed more than it named".to_string());
            }
            Ok(Stored::read(&bytes))
        };
        Ok(Stores([read(&ends[0])?, read(&ends[1])?]))
    }

    pub fn of(&self, end: usize) -> &Stored {
        &self.0[end]
    }

    /// The demand in both directions.
    pub fn check(&self, ends: &[End; 2], habits: &Habits) -> Result<(), String> {
        for (sender, receiver) in [(0, 1), (1, 0)] {
            check_direction(&ends[sender], &self.0[sender], &ends[receiver], &self.0[receiver])
                .map_err(|what| format!("from end {sender} to end {receiver}: {what}"))?;
            check_requests(&ends[sender], &self.0[sender]).map_err(|what| format!("at end {sender}: {what}"))?;
            check_withdrawing(&self.0[sender], habits).map_err(|what| format!("at end {sender}: {what}"))?;
            index::check(&self.0[sender], &ends[sender].given, &ends[sender].used)
                .map_err(|what| format!("at end {sender}: {what}"))?;
        }
        Ok(())
    }
}

/// What the sender accepted, let go and holds, and what the receiver secured.
fn check_direction(sender: &End, sent: &Stored, receiver: &End, received: &Stored) -> Result<(), String> {
    let (accepted, held) = (&sender.accepted, &sent.queue);
    require(held.len() <= SLOTS, "more than 64 held, those left out among them")?;
    require(held.len() <= accepted.len(), "more held than accepted")?;
    let let_go = accepted.len() - held.len();
    let released = steps_after(sender.base, let_go as u64);
    require(sent.released == released, "accepted is not let go plus held")?;
    let rest = accepted[let_go..].iter().eq(held.iter().map(|queued| &queued.bytes));
    require(rest, "the store does not hold exactly the rest, each in its slot")?;
    let taken = steps_between(sender.base, received.secured) as usize;
    require(taken <= accepted.len(), "the secured number is past those accepted")?;
    let last_sent = taken.checked_sub(1).is_none_or(|last| !sender.left_out.contains(&last));
    require(last_sent, "the secured number is that of a message left out")?;
    let opening = sender.due(taken).eq(&receiver.secured);
    require(opening, "secured is not the opening part of accepted, without those left out, that its number tells")?;
    require(let_go <= taken, "let go, without those left out, is not an opening part of secured")
}

/// A Request is open from its acceptance until its Abort is accepted or an answer secured; whether Requests are stopped
/// is what the last message about it said, each way.
fn check_requests(end: &End, stored: &Stored) -> Result<(), String> {
    let mut open = stored.open_requests();
    open.sort_unstable();
    require(open.iter().eq(&end.open), "the open Requests are not those accepted and not ended")?;
    let marked = |mark| stored.marks & mark != 0;
    require(marked(STOPPED) == tell_none(&end.secured), "stopped is not what the peer told")?;
    require(marked(STOPPING) == tell_none(&end.accepted), "stopping is not what we told the peer")
}

/// After a cut before block 0 the state is the one before the call, with labels used without protection freed.
pub fn check_undone(before: &[u8], after: &[u8]) -> Result<(), String> {
    let same = Stored::read(after).state() == Stored::read(before).after_break().state();
    require(same, "a call cut before block 0 has changed the state")
}

/// Once everything has arrived: all accepted is secured, but for those left out, and the two lists agree.
pub fn check_drained(ends: &[End; 2], habits: &Habits, tally: &mut Tally) -> Result<(), String> {
    for (sender, receiver) in [(0, 1), (1, 0)] {
        let arrived = ends[sender].due(usize::MAX).eq(&ends[receiver].secured);
        require(arrived, "not all arrived that was accepted and not left out")?;
        let [giver, user] = [sender, receiver].map(|end| Stored::read(&ends[end].image));
        check_agreed(&giver, &user, habits, tally)?;
    }
    Ok(())
}
