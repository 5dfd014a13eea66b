//! The accounts at the end: both label lists, and the third demand from the stores' bytes and the owners' records.

use super::journal::{self, Entry};
use super::verdict::Delivery;
use super::{left_out, Setting, NAMES};
use crate::holdings::{Holdings, Listed};
use crate::json::Value;
use std::collections::BTreeSet;
use support::store::Store;
use support::wire::{self, types};

const GIVEN: u32 = 1;
const USING: u32 = 3;

/// What one cabinet leaves behind.
struct Left {
    holdings: Holdings,
    accepted: Vec<Entry>,
    /// The numbers of those among them that were left out.
    left_out: BTreeSet<u32>,
    secured: Vec<Entry>,
}

impl Left {
    fn read(setting: &Setting, name: &str) -> Result<Self, String> {
        let text = |error: std::io::Error| format!("{name}: {error}");
        let image = Store::open(&setting.file(name, "store")).and_then(|store| store.read()).map_err(text)?;
        let holdings = Holdings::read(&image)
            .map_err(|refused| format!("{name}: its image is refused {} block {}", refused.answer, refused.block))?;
        Ok(Left {
            holdings,
            accepted: journal::read(&setting.file(name, "accepted")).map_err(text)?,
            left_out: left_out::read(&setting.file(name, "left-out")).map_err(text)?,
            secured: journal::read(&setting.file(name, "secured")).map_err(text)?,
        })
    }

    /// What was accepted and not left out.
    fn due(&self) -> Vec<&Entry> {
        self.accepted.iter().filter(|entry| !self.left_out.contains(&entry.number)).collect()
    }

    fn held(&self) -> Vec<Vec<u8>> {
        self.holdings.held.iter().map(|held| held.message.clone()).collect()
    }

    /// Each that was left out is a Request whose Abort was accepted behind it.
    fn has_left_out_rightly(&self) -> bool {
        let names = |abort: &Entry, id| is_of(types::ABORT, abort) && wire::request_id(&abort.message) == Some(id);
        let is_undone = |entry: &Entry| {
            let id = wire::message_id(&entry.message);
            let mut behind = self.accepted.iter().filter(|other| other.number > entry.number);
            is_of(types::REQUEST, entry) && behind.any(|other| names(other, id))
        };
        let left_out = self.accepted.iter().filter(|entry| self.left_out.contains(&entry.number));
        left_out.filter(|entry| is_undone(entry)).count() == self.left_out.len()
    }
}

fn is_of(message_type: u16, entry: &Entry) -> bool {
    wire::message_type(&entry.message) == message_type
}

/// One direction: from whom to whom, and the clauses of the demand, each with whether it holds.
struct Direction {
    names: [&'static str; 2],
    clauses: Vec<(String, bool)>,
}

/// The accounts of both cabinets.
pub struct Accounts {
    /// What each gives and uses, in order.
    labels: [[Vec<Listed>; 2]; 2],
    directions: [Direction; 2],
    delivery: Delivery,
    lists_agree: bool,
}

/// Closes the accounts of both cabinets.
pub fn close(setting: &Setting) -> Result<Accounts, String> {
    let [north, south] = [Left::read(setting, NAMES[0])?, Left::read(setting, NAMES[1])?];
    let labels = [&north, &south].map(|left| [GIVEN, USING].map(|code| left.holdings.labels_of(code)));
    let direction = |names, sender, receiver| Direction { names, clauses: clauses(sender, receiver) };
    Ok(Accounts {
        labels,
        directions: [direction(NAMES, &north, &south), direction([NAMES[1], NAMES[0]], &south, &north)],
        delivery: delivery(&north, &south).and(delivery(&south, &north)),
        lists_agree: lists_agree(&north, &south) && lists_agree(&south, &north),
    })
}

impl Accounts {
    fn clauses_hold(&self) -> bool {
        self.directions.iter().flat_map(|direction| &direction.clauses).all(|(_, holds)| *holds)
    }

    pub fn are_right(&self) -> bool {
        self.delivery.is_right() && self.lists_agree && self.clauses_hold()
    }

    /// Both label lists, every clause, and the verdict as the last line.
    pub fn in_full(&self) -> String {
        let mut text = String::new();
        for (name, [given, used]) in NAMES.iter().zip(&self.labels) {
            text += &format!("{name} gives {}\n{name} uses  {}\n", in_a_line(given), in_a_line(used));
        }
        for Direction { names: [from, to], clauses } in &self.directions {
            text += &format!("\nfrom {from} to {to}\n");
            text.extend(clauses.iter().map(|(clause, holds)| clause_line(clause, *holds)));
        }
        text + &format!("\n{}\n", self.verdict())
    }

    /// How many labels there are, the clauses that do not hold, and the verdict as the last line.
    pub fn in_short(&self) -> String {
        let mut text = String::new();
        for (from, [given, _]) in self.labels.iter().enumerate() {
            let (gives, uses) = (NAMES[from], NAMES[1 - from]);
            text += &format!("{gives} gives {} labels, {uses} uses {}\n", given.len(), self.labels[1 - from][1].len());
        }
        for Direction { names: [from, to], clauses } in &self.directions {
            let failing = clauses.iter().filter(|(_, holds)| !holds);
            text.extend(failing.map(|(clause, _)| format!("from {from} to {to}: {}", clause_line(clause, false))));
        }
        text + &format!("{}\n", self.verdict())
    }

    fn verdict(&self) -> String {
        self.delivery.in_words(self.lists_agree, self.clauses_hold())
    }

    pub fn json(&self) -> Vec<(&'static str, Value)> {
        let Delivery { accepted, left_out, secured, lost, twice, unknown, out_of_order, waiting } = self.delivery;
        let numbers = |of: &Vec<Listed>| of.iter().map(|listed| listed.label).collect::<Value>();
        let [[north_gives, north_uses], [south_gives, south_uses]] =
            self.labels.each_ref().map(|of| of.each_ref().map(numbers));
        vec![
            ("accepted", accepted.into()),
            ("secured", secured.into()),
            ("left_out", left_out.into()),
            ("lost", lost.into()),
            ("twice", twice.into()),
            ("out_of_order", out_of_order.into()),
            ("never_accepted", unknown.into()),
            ("still_held", waiting.into()),
            ("lists_agree", self.lists_agree.into()),
            ("accounts_add_up", self.clauses_hold().into()),
            ("north_gives", north_gives),
            ("north_uses", north_uses),
            ("south_gives", south_gives),
            ("south_uses", south_uses),
            ("verdict", self.verdict().into()),
        ]
    }
}

fn in_a_line(labels: &[Listed]) -> String {
    labels.iter().map(Listed::to_string).collect::<Vec<String>>().join(", ")
}

fn clause_line(clause: &str, holds: bool) -> String {
    format!("  {} {clause}\n", if holds { "yes" } else { "NO " })
}

fn delivery(sender: &Left, receiver: &Left) -> Delivery {
    let due: Vec<Vec<u8>> = sender.due().iter().map(|entry| entry.message.clone()).collect();
    let secured: Vec<Vec<u8>> = receiver.secured.iter().map(|entry| entry.message.clone()).collect();
    let delivery = Delivery::of(&due, &secured, &sender.held());
    Delivery { accepted: sender.accepted.len(), left_out: sender.left_out.len(), ..delivery }
}

/// The labels given are the labels in use, each with its prefix.
fn lists_agree(sender: &Left, receiver: &Left) -> bool {
    in_a_line(&sender.holdings.labels_of(GIVEN)) == in_a_line(&receiver.holdings.labels_of(USING))
}

/// The clauses of the demand for one direction, each with whether it holds.
fn clauses(sender: &Left, receiver: &Left) -> Vec<(String, bool)> {
    let (due, held) = (sender.due(), sender.held());
    let (released, number) = (sender.holdings.summary.released, receiver.holdings.summary.secured);
    let rest = sender.accepted.iter().skip(released as usize).map(|entry| &entry.message).eq(&held);
    let let_go = due.iter().filter(|entry| entry.number <= released).count();
    let last = receiver.secured.last().map_or(0, |last| last.number);
    let (n, l, s, h) = (sender.accepted.len(), sender.left_out.len(), receiver.secured.len(), held.len());
    let without = if l == 0 { String::new() } else { format!(", without those left out ({l})") };
    vec![
        (
            format!("secured ({s}) is an opening part of accepted ({n}){without}, in order, nothing twice"),
            due.iter().zip(&receiver.secured).filter(|(due, secured)| *due == secured).count() == s,
        ),
        (format!("the secured number is that of the last of them ({number})"), number == last),
        (format!("let go ({let_go}) is an opening part of secured ({s})"), let_go <= s),
        (format!("the store holds exactly the rest ({h})"), rest),
        (format!("accepted ({n}) is let go ({released}) plus held ({h})"), n == released as usize + h),
        (format!("at most 64 are held ({h})"), h <= 64),
        (format!("left out are Requests whose Abort was accepted behind them ({l})"), sender.has_left_out_rightly()),
        ("the labels given are the labels in use, of the same prefixes".to_string(), lists_agree(sender, receiver)),
        ("no Request is open".to_string(), sender.holdings.requests.is_empty()),
        (
            "the peer knows whether there are labels to be had".to_string(),
            sender.holdings.summary.is_stopping() == receiver.holdings.summary.is_stopped(),
        ),
    ]
}

#[cfg(test)]
mod tests {
    use super::*;
    use crate::watch::clock::Clock;
    use crate::watch::Forms;
    use support::hex;
    use support::store::Directory;
    use support::wire::{prefix, Message};
    use trials::entries::{entry, NO_ENTRY};
    use trials::stored::{word, Stored};

    /// What both cabinets leave, and where.
    struct Scene {
        directory: Directory,
        stores: [Stored; 2],
        /// Accepted, left out and secured of north, then of south, a line each.
        journals: [String; 6],
    }

    /// Each end has secured two messages of the other, which has let them go; north gives label 16 of a prefix.
    fn in_order() -> Scene {
        let idle = Stored { kept: true, released: 2, issued: 2, secured: 2, ..Stored::idle() };
        let mut stores = [idle.clone(), idle];
        (stores[0].labels[0], stores[1].labels[0]) = (word(16, GIVEN), word(16, USING));
        (stores[0].entries[0], stores[1].entries[0]) = (entry(24, 0x0A00_1000), entry(24, 0x0A00_1000));
        let [a, b] = [["aa", "ab"], ["ba", "bb"]].map(|names| records(&names));
        let journals = [a.clone(), String::new(), b.clone(), b, String::new(), a];
        Scene { directory: Directory::create("test-accounts").unwrap(), stores, journals }
    }

    /// Records of messages whose bytes are these, with numbers from 1 on.
    fn records(digits: &[&str]) -> String {
        digits.iter().enumerate().map(|(place, digits)| format!("{} {digits}\n", place + 1)).collect()
    }

    /// Closes the accounts: the verdict, and whether all is right.
    fn closed(scene: &Scene) -> (String, bool) {
        let directory = scene.directory.path().to_path_buf();
        let (clock, forms) = (Clock::start(), Forms::Draft);
        let setting = Setting { directory, clock, labels: 1, on_demand: false, forms };
        for (end, name) in NAMES.iter().enumerate() {
            Store::create(&setting.file(name, "store")).unwrap().write_all(&scene.stores[end].image(0)).unwrap();
            for (what, journal) in ["accepted", "left-out", "secured"].iter().zip(&scene.journals[3 * end..]) {
                std::fs::write(setting.file(name, what), journal).unwrap();
            }
        }
        let accounts = close(&setting).unwrap();
        assert_eq!(accounts.in_full().lines().last(), accounts.in_short().lines().last());
        (accounts.verdict(), accounts.are_right())
    }

    #[test]
    fn accounts_in_order() {
        let verdict = "4 messages: 4 secured, none lost, none twice; both lists agree";
        assert_eq!(closed(&in_order()), (verdict.to_string(), true));
    }

    #[test]
    fn what_does_not_add_up_is_told() {
        let tampered = |journal: usize, text: &str| {
            let mut scene = in_order();
            scene.journals[journal] = text.to_string();
            closed(&scene)
        };
        for (digits, told) in [
            (&["aa"][..], "4 messages: 3 secured, 1 lost, none twice;"),
            (&["aa", "aa", "ab"], "4 messages: 5 secured, none lost, 1 twice;"),
            (&["ab", "aa"], "4 messages: 4 secured, none lost, none twice, 1 out of order;"),
            (&["aa", "ab", "cc"], "4 messages: 5 secured, none lost, none twice, 1 never accepted;"),
        ] {
            let (verdict, right) = tampered(5, &records(digits));
            assert!(verdict.starts_with(told) && !right, "{verdict}");
        }
        let (verdict, right) = tampered(5, "1 aa\n3 ab\n");
        assert!(verdict.ends_with("; the accounts do not add up") && !right, "another number: {verdict}");
    }

    /// North has asked, aborted and told an address; the Request was left out, and so the secured numbers begin with 2.
    fn with_left_out() -> Scene {
        let messages = [
            Message::new(types::REQUEST, 5).fec(&prefix(1)),
            Message::new(types::ABORT, 6).fec(&prefix(1)).request_id(5),
            Message::new(types::ADDRESS, 7),
        ];
        let digits = messages.map(|message| hex::digits(&message.bytes()));
        let accepted = records(&digits.each_ref().map(String::as_str));
        let secured: String = accepted.split_inclusive('\n').skip(1).collect();
        let mut scene = in_order();
        (scene.stores[0].released, scene.stores[0].issued, scene.stores[1].secured) = (3, 3, 3);
        (scene.journals[0], scene.journals[1], scene.journals[5]) = (accepted, "1\n".to_string(), secured);
        scene
    }

    #[test]
    fn what_is_left_out_is_no_loss() {
        let verdict = "5 messages: 4 secured, 1 left out, none lost, none twice; both lists agree";
        assert_eq!(closed(&with_left_out()), (verdict.to_string(), true));
        for (left_out, told) in [
            ("", "5 messages: 4 secured, 1 lost, none twice;"),
            ("2\n", "5 messages: 4 secured, 1 left out, 1 lost, none twice, 1 never accepted;"),
            ("1\n3\n", "5 messages: 4 secured, 2 left out, none lost, none twice, 1 never accepted;"),
            ("1\n9\n", "5 messages: 4 secured, 2 left out, none lost, none twice;"),
        ] {
            let mut scene = with_left_out();
            scene.journals[1] = left_out.to_string();
            let (verdict, right) = closed(&scene);
            assert!(
                verdict.starts_with(told) && verdict.ends_with("; the accounts do not add up") && !right,
                "{verdict}"
            );
        }
    }

    /// A message without an Abort behind it must not be left out, even if the peer did not miss it.
    #[test]
    fn what_is_left_out_wrongly_is_told() {
        let mut scene = with_left_out();
        (scene.journals[1], scene.stores[1].secured) = ("1\n3\n".to_string(), 2);
        scene.journals[5] = scene.journals[5].split_inclusive('\n').take(1).collect();
        let (verdict, right) = closed(&scene);
        let told = "5 messages: 3 secured, 2 left out, none lost, none twice; both lists agree";
        assert_eq!((verdict, right), (format!("{told}; the accounts do not add up"), false));
    }

    #[test]
    fn lists_and_stores_that_differ_are_told() {
        let (mut no_label, mut no_prefix) = (in_order(), in_order());
        no_label.stores[1].labels[0] = 0;
        no_prefix.stores[1].entries[0] = NO_ENTRY;
        for scene in [no_label, no_prefix] {
            let (verdict, right) = closed(&scene);
            assert!(verdict.ends_with("; the lists differ; the accounts do not add up") && !right, "{verdict}");
        }
        let mut scene = in_order();
        scene.stores[1].secured = 3;
        let (verdict, right) = closed(&scene);
        assert!(verdict.ends_with("; both lists agree; the accounts do not add up") && !right, "{verdict}");
    }
}
