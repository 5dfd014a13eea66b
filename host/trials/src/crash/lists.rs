//! The label lists of two ends, held against what is in the store and against each other.

use super::habits::{Customs, Habits};
use super::require;
use super::tally::Tally;
use crate::stored::{word, Stored};

const OURS: [u32; 4] = [1, 2, 8, 9];
const THEIRS: [u32; 4] = [3, 4, 5, 6];

/// The code of a label among those of one side, 0 where it is absent.
fn code(stored: &Stored, side: &[u32], label: u32) -> u32 {
    side.iter().copied().find(|code| stored.labels.contains(&word(label, *code))).unwrap_or(0)
}

/// The entry of a label on one side, if it is listed there.
fn entry(stored: &Stored, side: &[u32], label: u32) -> Option<u64> {
    stored.listed().find(|(listed, code, _)| *listed == label && side.contains(code)).map(|(_, _, entry)| entry)
}

/// A label is withdrawing, or waits for the ACK of its Withdraw alone, exactly as long as the Withdraw is held.
pub fn check_withdrawing(stored: &Stored, habits: &Habits) -> Result<(), String> {
    for label in 16..=habits.last_label {
        let held = stored.queue.iter().any(|queued| queued.kind == 2 && queued.label == label);
        let waits = [2, 9].contains(&code(stored, &OURS, label));
        require(held == waits, "the labels that wait for an ACK are not those whose Withdraw is held")?;
    }
    Ok(())
}

/// Once everything has arrived and is acknowledged: where the owners keep a rule both ends list the same labels, given
/// and in use, or withdrawn and asked back. Where they keep none, what is given or withdrawn is in use or asked back.
pub fn check_agreed(giver: &Stored, user: &Stored, habits: &Habits, tally: &mut Tally) -> Result<(), String> {
    for label in 16..=habits.last_label {
        let codes = (code(giver, &OURS, label), code(user, &THEIRS, label));
        let agreed = match codes {
            (0, 0) | (1, 3) | (8, 4) => true,
            (0, 3 | 4) | (1, 4) | (8, 3) => habits.customs == Customs::Any,
            _ => false,
        };
        require(agreed, &format!("label {label} has the codes {codes:?}"))?;
        let entries = [entry(giver, &OURS, label), entry(user, &THEIRS, label)];
        let alike = entries.contains(&None) || entries[0] == entries[1];
        require(alike, &format!("label {label} has the entries {entries:x?}"))?;
        tally.given += u64::from(codes == (1, 3));
        tally.withdrawn += u64::from(codes == (8, 4));
    }
    Ok(())
}
