//! How the owners of a world behave: what they do with labels, and how often the power is cut.

use crate::random::Random;
use crate::stored::{word, Stored};
use cabinet::FURTHER;

/// What the owners of a world do with labels.
#[derive(Clone, Copy, Debug, PartialEq, Eq)]
pub enum Customs {
    /// They offer and release them at any time: a Mapping of a label that is given and its Release may cross.
    Any,
    /// A label is not offered while it is given.
    OffersFree,
    /// A label is not released before it was asked back.
    ReleasesAsked,
    /// No label is released.
    Keeps,
    /// No label is withdrawn: it is released, and then offered anew.
    Renews,
}

impl Customs {
    /// True where a label may be offered now.
    pub fn may_offer(self, stored: &Stored, label: u32) -> bool {
        !matches!(self, Customs::OffersFree | Customs::Renews) || !stored.labels.contains(&word(label, 1))
    }

    /// The codes under which a label may be released.
    pub fn releasable(self) -> &'static [u32] {
        match self {
            Customs::Any | Customs::OffersFree | Customs::Renews => &[3, 4],
            Customs::ReleasesAsked => &[4],
            Customs::Keeps => &[],
        }
    }
}

/// How the owners of a world behave.
#[derive(Clone, Copy, Debug)]
pub struct Habits {
    /// Labels are taken from 16 up to this one.
    pub last_label: u32,
    /// Labels beyond them, as many, that both ends list from the start and no owner speaks of.
    pub settled: usize,
    pub customs: Customs,
    /// How often, in a hundred submissions, one is about Requests.
    pub asks: usize,
    /// How often, in a hundred of these, a Request that is open is aborted.
    pub aborts: usize,
    /// How often, in a hundred calls that change a further block, the power is cut: for each of these blocks.
    pub cuts_in_further: [usize; FURTHER.len()],
    /// How often, in a hundred submissions after a Release of the peer's, its label is offered anew.
    pub renews: usize,
    /// How often, in a hundred Sends, an ACK goes with the message.
    pub acks: usize,
    /// How often, in a hundred times that a KeepAlive is due, it is sent.
    pub keepalives: usize,
    /// How often, in a hundred submissions, one may be about neither labels nor Requests.
    pub others: usize,
    /// How often, in a hundred steps, something is submitted.
    pub submits: usize,
    /// How often, in a hundred calls, the power is cut.
    pub cuts: usize,
    /// How often, in a thousand steps, the connection breaks by itself.
    pub breaks: usize,
    /// How often, in a thousand steps, a store is moved to version 1 and forward again.
    pub moves: usize,
    /// How often, in a hundred points of such a move, the power is cut.
    pub cuts_in_moving: usize,
}

impl Habits {
    pub fn any(random: &mut Random) -> Self {
        Habits {
            last_label: random.pick(&[30, 65, 65, 65]),
            settled: 0,
            customs: random.pick(&[Customs::Any, Customs::OffersFree, Customs::ReleasesAsked, Customs::Keeps]),
            asks: random.pick(&[0, 30, 70]),
            aborts: random.pick(&[5, 5, 40]),
            cuts_in_further: [40, 10, 10],
            renews: random.pick(&[0, 0, 50]),
            acks: 50,
            keepalives: 100,
            others: 100,
            submits: random.pick(&[10, 30, 60]),
            cuts: random.pick(&[2, 6, 20]),
            breaks: random.pick(&[0, 8, 40]),
            moves: random.pick(&[0, 4]),
            cuts_in_moving: 30,
        }
    }

    /// Owners that ask for labels again and again, with hardly anything cut but that.
    pub fn asking(random: &mut Random) -> Self {
        Habits {
            asks: 80,
            aborts: 5,
            cuts_in_further: [90, 2, 2],
            submits: 30,
            cuts: 2,
            breaks: 0,
            ..Habits::any(random)
        }
    }

    /// Owners that offer labels again and again, beside so many that are settled that the words which they take stand
    /// in either block of the index, with hardly anything cut but that.
    pub fn indexing(random: &mut Random) -> Self {
        let any = Habits { cuts: 2, breaks: 0, moves: 0, ..Habits::any(random) };
        let (last_label, settled) = random.pick(&[(30, 10), (30, 60)]);
        let customs = Customs::OffersFree;
        Habits { last_label, settled, customs, asks: 0, cuts_in_further: [0, 85, 85], others: 5, submits: 25, ..any }
    }

    /// Owners that offer labels anew, of other FECs, as soon as the peer has released them, and acknowledge late.
    pub fn renewing(random: &mut Random) -> Self {
        let any = Habits { cuts: 1, breaks: 0, moves: 0, asks: 0, ..Habits::any(random) };
        let (settled, customs) = (random.pick(&[0, 50, 60]), Customs::Renews);
        let offers = Habits { last_label: 24, settled, customs, renews: 90, others: 10, submits: 12, ..any };
        Habits { cuts_in_further: [0, 6, 6], acks: 0, keepalives: 30, ..offers }
    }

    /// How many words the labels may take, on both sides.
    pub fn words(&self) -> usize {
        2 * (self.last_label as usize - 15) + self.settled
    }

    /// Owners whose stores are moved from version to version again and again.
    pub fn moving(random: &mut Random) -> Self {
        Habits { moves: 120, cuts_in_moving: 40, cuts: 2, ..Habits::any(random) }
    }

    /// Owners that ask for labels and think better of it, over connections that break again and again.
    pub fn aborting(random: &mut Random) -> Self {
        Habits {
            asks: 90,
            aborts: 30,
            cuts_in_further: [3, 2, 2],
            submits: 25,
            cuts: 2,
            breaks: 100,
            ..Habits::any(random)
        }
    }
}
