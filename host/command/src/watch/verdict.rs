//! The verdict: what became of every message, counted from what was accepted, secured and held.

use std::collections::BTreeMap;

/// A message as its owner recorded it.
type Record = Vec<u8>;

/// What became of messages.
#[derive(Clone, Copy, Debug, Default, PartialEq, Eq)]
pub struct Delivery {
    pub accepted: usize,
    /// Accepted, and not sent again because an Abort undoes it.
    pub left_out: usize,
    pub secured: usize,
    /// Accepted, and neither left out nor secured nor held.
    pub lost: usize,
    /// Secured more often than accepted.
    pub twice: usize,
    /// Secured and never accepted.
    pub unknown: usize,
    /// Secured behind one that was accepted after it.
    pub out_of_order: usize,
    /// Held and not secured yet.
    pub waiting: usize,
}

impl Delivery {
    /// Compares what one end accepted, but for what it left out, and still holds with what the other secured.
    pub fn of(accepted: &[Record], secured: &[Record], held: &[Record]) -> Self {
        let (sent, taken, kept) = (counts(accepted), counts(secured), counts(held));
        let of = |counts: &BTreeMap<&Record, usize>, msg: &Record| counts.get(msg).copied().unwrap_or(0);
        let mut delivery = Delivery { accepted: accepted.len(), secured: secured.len(), ..Delivery::default() };
        for (msg, count) in &sent {
            let missing = count.saturating_sub(of(&taken, msg));
            let waiting = missing.min(of(&kept, msg));
            delivery.waiting += waiting;
            delivery.lost += missing - waiting;
            delivery.twice += of(&taken, msg).saturating_sub(*count);
        }
        let unknown = taken.iter().filter(|(msg, _)| !sent.contains_key(*msg)).map(|(_, count)| count);
        delivery.unknown = unknown.sum();
        delivery.out_of_order = misplaced(accepted, secured) - delivery.twice - delivery.unknown;
        delivery
    }

    /// Both directions together.
    pub fn and(self, other: Self) -> Self {
        Delivery {
            accepted: self.accepted + other.accepted,
            left_out: self.left_out + other.left_out,
            secured: self.secured + other.secured,
            lost: self.lost + other.lost,
            twice: self.twice + other.twice,
            unknown: self.unknown + other.unknown,
            out_of_order: self.out_of_order + other.out_of_order,
            waiting: self.waiting + other.waiting,
        }
    }

    /// True where every message but those left out was secured once and in order.
    pub fn is_right(&self) -> bool {
        let Delivery { accepted, left_out, secured, .. } = *self;
        accepted == secured + left_out && *self == Delivery { accepted, left_out, secured, ..Delivery::default() }
    }

    /// The verdict in a line.
    pub fn in_words(&self, lists_agree: bool, clauses_hold: bool) -> String {
        let number = |count: usize| if count == 0 { "none".to_string() } else { count.to_string() };
        let where_any = |count: usize, what: &str| if count == 0 { String::new() } else { format!(", {count} {what}") };
        format!(
            "{} messages: {} secured{}, {} lost, {} twice{}{}{}; {}{}",
            self.accepted,
            self.secured,
            where_any(self.left_out, "left out"),
            number(self.lost),
            number(self.twice),
            where_any(self.out_of_order, "out of order"),
            where_any(self.unknown, "never accepted"),
            where_any(self.waiting, "still held"),
            if lists_agree { "both lists agree" } else { "the lists differ" },
            if clauses_hold { "" } else { "; the accounts do not add up" },
        )
    }
}

fn counts(messages: &[Record]) -> BTreeMap<&Record, usize> {
    let mut counts = BTreeMap::new();
    for msg in messages {
        *counts.entry(msg).or_default() += 1;
    }
    counts
}

/// How many secured messages are not found among the accepted ones behind those secured before them.
fn misplaced(accepted: &[Record], secured: &[Record]) -> usize {
    let mut rest = accepted;
    let mut misplaced = 0;
    for msg in secured {
        match rest.iter().position(|other| other == msg) {
            Some(place) => rest = &rest[place + 1..],
            None => misplaced += 1,
        }
    }
    misplaced
}

#[cfg(test)]
mod tests {
    use super::*;

    fn messages(names: &str) -> Vec<Record> {
        names.bytes().map(|name| vec![name]).collect()
    }

    fn verdict(accepted: &str, secured: &str, held: &str) -> String {
        let delivery = Delivery::of(&messages(accepted), &messages(secured), &messages(held));
        assert_eq!(delivery.is_right(), accepted == secured);
        delivery.in_words(true, true)
    }

    #[test]
    fn all_is_well() {
        assert_eq!(verdict("abca", "abca", ""), "4 messages: 4 secured, none lost, none twice; both lists agree");
        assert_eq!(verdict("", "", ""), "0 messages: 0 secured, none lost, none twice; both lists agree");
    }

    #[test]
    fn what_is_wrong_is_counted() {
        for (accepted, secured, held, expected) in [
            ("abc", "ac", "", "3 messages: 2 secured, 1 lost, none twice; both lists agree"),
            ("abc", "ab", "c", "3 messages: 2 secured, none lost, none twice, 1 still held; both lists agree"),
            ("abc", "", "c", "3 messages: 0 secured, 2 lost, none twice, 1 still held; both lists agree"),
            ("abc", "abbc", "", "3 messages: 4 secured, none lost, 1 twice; both lists agree"),
            ("abc", "acb", "", "3 messages: 3 secured, none lost, none twice, 1 out of order; both lists agree"),
            ("abc", "abxc", "", "3 messages: 4 secured, none lost, none twice, 1 never accepted; both lists agree"),
            ("aab", "ab", "", "3 messages: 2 secured, 1 lost, none twice; both lists agree"),
            ("ab", "ba", "", "2 messages: 2 secured, none lost, none twice, 1 out of order; both lists agree"),
            ("ab", "xx", "", "2 messages: 2 secured, 2 lost, none twice, 2 never accepted; both lists agree"),
        ] {
            assert_eq!(verdict(accepted, secured, held), expected, "{accepted} {secured} {held}");
        }
    }

    #[test]
    fn what_is_left_out_is_named_where_there_is_any() {
        let left_out = Delivery { accepted: 3, left_out: 1, ..Delivery::of(&messages("ac"), &messages("ac"), &[]) };
        assert!(left_out.is_right());
        let words = "3 messages: 2 secured, 1 left out, none lost, none twice; both lists agree";
        assert_eq!(left_out.in_words(true, true), words);
        assert_eq!(left_out.and(left_out).left_out, 2);
        assert!(!Delivery { accepted: 4, ..left_out }.is_right());
        assert!(!Delivery { left_out: 2, ..left_out }.is_right());
        assert!(!Delivery { left_out: 1, ..Delivery::of(&messages("a"), &messages("ab"), &[]) }.is_right());
    }

    #[test]
    fn lists_and_accounts_are_named() {
        let right = Delivery::of(&messages("ab"), &messages("ab"), &[]);
        assert!(right.in_words(false, true).ends_with("; the lists differ"));
        assert!(right.in_words(true, false).ends_with("; both lists agree; the accounts do not add up"));
        let both = right.and(Delivery::of(&messages("abc"), &messages("ab"), &[]));
        assert_eq!((both.accepted, both.secured, both.lost), (5, 4, 1));
    }
}
