//! Receive: the ACK acts first, then the message, judged by the labels as the ACK leaves them.

use crate::draft::Draft;
use crate::image::{self, Head, Refusal};
use crate::labels::{self, Standing};
use crate::message::{self, kinds, types};
use crate::session::{apply_ack, break_off, enter, release_state, up};
use crate::{index, number, requests};
use cabinet::{has, marks, phase, Message, Outcome, Session};

pub fn receive(image: &mut [u8], session: Session, msg: &[u8]) -> Result<Outcome, Refusal> {
    let head = enter(image, session, &[phase::UP_FT, phase::UP_PLAIN])?;
    let Some(read) = message::read(msg).filter(|read| read.message_type != types::INITIALIZATION) else {
        return Ok(break_off(image, head.kept, 22));
    };
    if message::is_fatal(&read) {
        return Ok(release_state(image, 36, phase::IDLE));
    }
    if session.phase == phase::UP_PLAIN {
        return Ok(receive_plain(image, &read));
    }
    let mut draft = Draft::of(image);
    let resumed = session.is_resumed();
    Ok(match accept(&mut draft, image, &head, resumed, &read, msg) {
        Ok(Accepted { released, left_out, taken }) => {
            let sent = session.value.saturating_sub(released);
            let further = taken.map_or(0, |Taken { place, entry }| image::write_entry(image, place, entry));
            let block0 = draft.store(image);
            Outcome { session: up(sent, resumed), block0, further, left_out, ..Outcome::default() }
        }
        Err(answer) if answer < 30 => break_off(image, head.kept, answer),
        Err(answer) => release_state(image, answer, phase::IDLE),
    })
}

/// In UpPlain messages are passed on; an FT TLV ends the session.
fn receive_plain(image: &mut [u8], read: &Message) -> Outcome {
    if read.has & has::FT != 0 {
        release_state(image, 31, phase::IDLE)
    } else {
        Outcome { session: Session::new(phase::UP_PLAIN, 0), ..Outcome::default() }
    }
}

/// The labels that a received message is about.
enum Target {
    /// The label of a Mapping, and the entry of its FEC.
    Mapped(Standing, u64),
    /// The label of a Withdraw or a Release.
    Named(Standing),
    All,
    /// Those of a prefix, by its entry.
    OfPrefix(u64),
    None,
}

impl Target {
    /// A named label is looked up on the side that the message acts on.
    fn of(read: &Message, msg: &[u8], old: &[u8], list: &[u8]) -> Self {
        if !message::kind_names_label(read.kind) {
            return Target::None;
        }
        let fec = message::fec(read, msg);
        let standing = || Standing::find(old, list, read.label, labels::side_receiving(read.kind));
        match index::entry_of(fec) {
            entry if read.kind == kinds::MAPPING => Target::Mapped(standing(), entry),
            _ if read.has & has::LABEL != 0 => Target::Named(standing()),
            _ if fec == [1] => Target::All,
            index::OTHER => Target::None,
            entry => Target::OfPrefix(entry),
        }
    }
}

/// Of a message that was accepted: how many of ours it released, how many the peer left out before it, and the word
/// that it took.
struct Accepted {
    released: u32,
    left_out: u32,
    taken: Option<Taken>,
}

/// A word that a Mapping took, and the entry of its FEC.
struct Taken {
    place: usize,
    entry: u64,
}

/// Applies ACK and message to the draft; or gives the answer that refuses it.
fn accept(
    draft: &mut Draft,
    image: &[u8],
    head: &Head,
    resumed: bool,
    read: &Message,
    msg: &[u8],
) -> Result<Accepted, u32> {
    let number = (read.has & has::FT_PROTECTION != 0).then_some(read.number);
    if number == Some(0) {
        return Err(30);
    }
    let mut released = 0;
    if read.has & has::FT_ACK != 0 {
        released = apply_ack(draft, image, head, read.ack).ok_or(34u32)?;
    }
    let old = image::list(image::block(image, 0));
    let target = Target::of(read, msg, old, draft.list());
    let protected = number.is_some();
    if !protected && needs_protection(draft.list(), image, read.kind, &target) {
        return Err(33);
    }
    if protected && forbids_protection(read.kind, &target) {
        return Err(32);
    }
    let left_out = number.map_or(Ok(0), |number| secure(draft, head.secured, number, resumed))?;
    draft.mark_resources(read.kind, marks::STOPPED);
    let ended = end_request(draft.list_mut(), image, read);
    let taken = take_labels(draft.list_mut(), image, read.kind, target, ended, protected)?;
    Ok(Accepted { released, left_out, taken })
}

/// Moves the secured number to one that may come next; how many were left out before it, or 20.
fn secure(draft: &mut Draft, secured: u32, number: u32, resumed: bool) -> Result<u32, u32> {
    let next = number::next(secured, number, resumed);
    if next.answer != 0 {
        return Err(next.answer);
    }
    draft.set_secured(number);
    Ok(next.left_out)
}

/// Frees the word of the Request that the message answers, and gives its place.
fn end_request(list: &mut [u8], image: &[u8], read: &Message) -> Option<usize> {
    let place = requests::find(list, image::ids(image), message::answered(read)?)?;
    labels::set_word(list, place, 0);
    Some(place)
}

/// Answer 33: the message touches something that is protected.
fn needs_protection(list: &[u8], image: &[u8], kind: u32, target: &Target) -> bool {
    if matches!(kind, kinds::ADDRESS | kinds::ADDRESS_WITHDRAW | kinds::RESOURCES_AVAILABLE) {
        return true;
    }
    let side = labels::side_receiving(kind);
    match target {
        Target::Mapped(standing, _) | Target::Named(standing) => labels::is_protected(standing.code, side),
        Target::All => labels::any_protected(list, side),
        Target::OfPrefix(entry) => labels::any_protected_beside(list, index::entries(image), *entry, side),
        Target::None => false,
    }
}

/// Answer 32: a Mapping or Withdraw names a label that is used without protection.
fn forbids_protection(kind: u32, target: &Target) -> bool {
    match target {
        Target::Mapped(standing, _) | Target::Named(standing) => {
            kind != kinds::RELEASE && standing.code == labels::UNPROTECTED
        }
        _ => false,
    }
}

/// The label list after the message; the word that a Mapping took, or 21.
fn take_labels(
    list: &mut [u8],
    image: &[u8],
    kind: u32,
    target: Target,
    ended: Option<usize>,
    protected: bool,
) -> Result<Option<Taken>, u32> {
    match target {
        Target::Mapped(standing, entry) => return take_mapping(list, image, &standing, entry, ended, protected),
        Target::Named(standing) => labels::undo(list, kind, &standing),
        Target::All => labels::undo_each(list, kind, core::iter::repeat(true)),
        Target::OfPrefix(entry) => labels::undo_each(list, kind, index::entries(image).map(|beside| beside == entry)),
        Target::None => {}
    }
    Ok(None)
}

/// A Mapping of a label: one without a word, or with another entry than the Mapping's, takes the word of the Request
/// that has ended, or else a free one; 21 where there is none.
fn take_mapping(
    list: &mut [u8],
    image: &[u8],
    standing: &Standing,
    entry: u64,
    ended: Option<usize>,
    protected: bool,
) -> Result<Option<Taken>, u32> {
    if !labels::is_listed(standing.label) {
        return Ok(None);
    }
    if standing.place.is_some_and(|place| index::entry_at(image, place) == entry) {
        labels::mapping_received(list, standing, protected);
        return Ok(None);
    }
    let place = ended.or(standing.room).ok_or(21u32)?;
    labels::mapping_taken(list, standing, place, protected);
    Ok(Some(Taken { place, entry }))
}
