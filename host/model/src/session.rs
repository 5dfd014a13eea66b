//! The session's calls but send next and receive: each examines the image, judges the phase, and stores block 0 last.

use crate::draft::{self, Draft};
use crate::image::{self, Head, Refusal};
use crate::labels::{self, Standing};
use crate::message::{self, kinds, types, SECOND};
use crate::write::{self, Proposal};
use crate::{index, number, requests};
use cabinet::{
    has, marks, phase, Extended, Message, Opening, Outcome, Session, IMAGE_SIZE, IMAGE_SIZE_WITHOUT_INDEX,
    IMAGE_SIZE_WITHOUT_REQUESTS, SLOTS,
};

/// The sizes of images of earlier releases, by how many further blocks they have.
const EARLIER: [usize; 2] = [IMAGE_SIZE_WITHOUT_REQUESTS, IMAGE_SIZE_WITHOUT_INDEX];
/// Seconds that are proposed where the owner gives none.
const DEFAULT_PROPOSAL: u16 = 30;

impl Refusal {
    /// The outcome of an answer that changes nothing.
    pub fn outcome(self, session: Session) -> Outcome {
        Outcome { answer: self.answer, block: self.block, session, ..Outcome::default() }
    }
}

/// UpFT with so many sent.
pub fn up(sent: u32, resumed: bool) -> Session {
    if resumed {
        Session::resumed(sent)
    } else {
        Session::new(phase::UP_FT, sent)
    }
}

/// Done, in the phase as it was: the value counts in InitWait and UpFT only, the flags in UpFT only.
fn done(session: Session) -> Outcome {
    let session = match session.phase {
        phase::UP_FT => up(session.value, session.is_resumed()),
        phase::INIT_WAIT => Session::new(phase::INIT_WAIT, session.value),
        phase => Session::new(phase, 0),
    };
    Outcome { session, ..Outcome::default() }
}

/// Examines the image and admits the phases of a call, where the image does not rule them out.
pub fn enter(image: &[u8], session: Session, phases: &[u32]) -> Result<Head, Refusal> {
    let head = image::examine(image)?;
    if phases.contains(&session.phase) && is_possible(session, &head) {
        Ok(head)
    } else {
        Err(Refusal::of(1))
    }
}

fn is_possible(session: Session, head: &Head) -> bool {
    match session.phase {
        phase::IDLE | phase::UP_PLAIN => !head.kept,
        phase::INIT_WAIT => true,
        phase::UP_FT => head.kept && session.value <= head.numbered,
        phase::FAILED => head.kept,
        _ => false,
    }
}

/// As connection failed: unprotected labels are freed; Failed where state is kept, else Idle.
pub fn break_off(image: &mut [u8], kept: bool, answer: u32) -> Outcome {
    let phase = if kept { phase::FAILED } else { phase::IDLE };
    let mut outcome = Outcome { answer, session: Session::new(phase, 0), ..Outcome::default() };
    if labels::any_code(image::list(image::block(image, 0)), labels::UNPROTECTED) {
        let mut draft = Draft::of(image);
        labels::free_all(draft.list_mut(), labels::UNPROTECTED);
        outcome.block0 = draft.store(image);
    }
    outcome
}

/// State released, in the phase given.
pub fn release_state(image: &mut [u8], answer: u32, phase: u32) -> Outcome {
    let block0 = Draft::released().store(image);
    Outcome { answer, session: Session::new(phase, 0), block0, ..Outcome::default() }
}

/// Applies an ACK to the draft and gives the number of messages released; none at a sequence error.
pub fn apply_ack(draft: &mut Draft, image: &[u8], head: &Head, ack: u32) -> Option<u32> {
    let steps = number::steps(head.released, ack).filter(|steps| *steps <= head.numbered)?;
    draft.let_go(image, head, ack, steps as usize);
    Some(steps)
}

pub fn format(image: &mut [u8]) -> Outcome {
    match <&mut [u8; IMAGE_SIZE]>::try_from(image) {
        Ok(image) => Outcome { block0: 1, further: draft::format(image), ..Outcome::default() },
        Err(_) => Refusal::of(12).outcome(Session::default()),
    }
}

/// Makes the blocks that a stored image of an earlier size lacks; looks at no other byte.
pub fn extend(image: &mut [u8], stored_len: usize) -> Extended {
    let there = EARLIER.iter().position(|size| *size == stored_len);
    match (<&mut [u8; IMAGE_SIZE]>::try_from(image), there) {
        (Ok(image), Some(there)) => Extended { answer: 0, further: image::clear_further(image, there) },
        _ => Extended { answer: 12, further: 0 },
    }
}

pub fn restore(image: &mut [u8]) -> Outcome {
    match image::examine(image) {
        Ok(head) => break_off(image, head.kept, 0),
        Err(refusal) => refusal.outcome(Session::default()),
    }
}

pub fn open(image: &[u8], session: Session, opening: &Opening, out: &mut [u8]) -> Result<Outcome, Refusal> {
    let head = enter(image, session, &[phase::IDLE, phase::FAILED])?;
    let ack = head.kept.then_some(head.secured);
    let proposal = proposal(opening);
    let length = proposal.init() + if head.kept { write::FT_TLV } else { 0 };
    let out = out.get_mut(..length).ok_or(Refusal::of(9))?;
    write::init(out, opening, proposal, ack);
    let session = Session::new(phase::INIT_WAIT, proposal.milliseconds());
    Ok(Outcome { session, length: length as u32, ..Outcome::default() })
}

/// What the owner proposes in the form that it names, or the default; the draft's form has its longest for more.
fn proposal(opening: &Opening) -> Proposal {
    if opening.published {
        Proposal::Milliseconds(opening.proposal.unwrap_or(u32::from(DEFAULT_PROPOSAL) * SECOND))
    } else {
        let longest = u32::from(u16::MAX);
        Proposal::Seconds(opening.proposal.map_or(DEFAULT_PROPOSAL, |seconds| seconds.min(longest) as u16))
    }
}

pub fn init_received(image: &mut [u8], session: Session, msg: &[u8]) -> Result<Outcome, Refusal> {
    let head = enter(image, session, &[phase::INIT_WAIT])?;
    let Some(init) = message::read(msg).filter(|init| init.message_type == types::INITIALIZATION) else {
        return Ok(break_off(image, head.kept, 22));
    };
    let peer_resumes = init.reconnect == 1;
    if init.has & has::PARAMETERS == 0 || (peer_resumes && init.has & has::FT_ACK == 0) {
        return Ok(break_off(image, head.kept, 23));
    }
    if init.has & has::FT_SESSION == 0 {
        return Ok(release_state(image, 0, phase::UP_PLAIN));
    }
    let resumes = head.kept && peer_resumes;
    let draft = if resumes {
        resumed(image, &head, &init)
    } else {
        Ok(Draft::fresh(init.keepalive_time as u16, init.max_pdu_length as u16))
    };
    Ok(match draft {
        Ok(mut draft) => {
            draft.set_timeout(number::lesser_timeout(session.value, message::milliseconds(&init)));
            let block0 = draft.store(image);
            Outcome { session: up(0, resumes), block0, ..Outcome::default() }
        }
        Err(answer) => release_state(image, answer, phase::IDLE),
    })
}

/// The session resumed: the peer's parameters are the stored ones, and its ACK is applied.
fn resumed(image: &[u8], head: &Head, init: &Message) -> Result<Draft, u32> {
    let same =
        init.keepalive_time == u32::from(head.keepalive_time) && init.max_pdu_length == u32::from(head.max_pdu_length);
    if !same {
        return Err(35);
    }
    let mut draft = Draft::of(image);
    apply_ack(&mut draft, image, head, init.ack).ok_or(34u32)?;
    Ok(draft)
}

pub fn connection_failed(image: &mut [u8], session: Session) -> Result<Outcome, Refusal> {
    let head = enter(image, session, &[phase::INIT_WAIT, phase::UP_FT, phase::UP_PLAIN])?;
    Ok(break_off(image, head.kept, 0))
}

pub fn time_passed(image: &mut [u8], session: Session, elapsed: u32) -> Result<Outcome, Refusal> {
    let head = enter(image, session, &[phase::FAILED])?;
    if head.timeout != 0 && elapsed >= head.timeout {
        Ok(release_state(image, 0, phase::IDLE))
    } else {
        Ok(done(session))
    }
}

pub fn submit(image: &mut [u8], session: Session, msg: &[u8]) -> Result<Outcome, Refusal> {
    let head = enter(image, session, &[phase::INIT_WAIT, phase::UP_FT, phase::FAILED])?;
    if !head.kept {
        return Err(Refusal::of(1));
    }
    if !(image::SHORTEST..=image::LONGEST).contains(&msg.len()) {
        return Err(Refusal::of(3));
    }
    let read = message::read(msg).ok_or(Refusal::of(4))?;
    if !message::may_be_queued(&read) {
        return Err(Refusal::of(5));
    }
    let change = judge_submission(image, &head, session.phase, &read, msg)?;
    let mut draft = Draft::of(image);
    change.make(draft.list_mut(), read.kind);
    draft.mark_resources(read.kind, marks::STOPPING);
    draft.set_held(head.held + 1);
    let block = head.block_of(head.held);
    image::write_slot(image, block, msg, read.kind, message::slot_label(&read));
    let further = match change {
        Change::Ask(place) => image::write_id(image, place, read.message_id),
        Change::Give(_, place, entry) => image::write_entry(image, place, entry),
        _ => 0,
    };
    let block0 = draft.store(image);
    Ok(Outcome { slot: block as u32, block0, further, ..done(session) })
}

/// What a message that is accepted makes of the label words.
enum Change {
    None,
    /// A label with a word gets another code.
    Label(Standing),
    /// A label takes the word at a place, with the entry of its FEC beside it.
    Give(Standing, usize, u64),
    /// The word at a place becomes an open Request.
    Ask(usize),
    /// The open Request at a place ends.
    Abort(usize),
}

impl Change {
    fn make(&self, list: &mut [u8], kind: u32) {
        match self {
            Change::None => {}
            Change::Label(standing) => labels::accepted(list, kind, standing),
            Change::Give(standing, place, _) => labels::given(list, standing, *place),
            Change::Ask(place) => labels::set_word(list, *place, labels::REQUEST),
            Change::Abort(place) => labels::set_word(list, *place, 0),
        }
    }
}

/// Answers 6, 14, 15, 13 and 7 of a message that may be queued; what it makes of the label words.
fn judge_submission(image: &[u8], head: &Head, phase: u32, read: &Message, msg: &[u8]) -> Result<Change, Refusal> {
    let list = image::list(image::block(image, 0));
    let change = match read.kind {
        kinds::MAPPING | kinds::WITHDRAW | kinds::RELEASE => judge_label(image, head, read, msg, list)?,
        kinds::REQUEST => Change::Ask(judge_request(image, head, phase, read, list)?),
        kinds::ABORT => Change::Abort(requests::find(list, image::ids(image), read.request_id).ok_or(Refusal::of(6))?),
        _ => Change::None,
    };
    if head.held == SLOTS {
        return Err(Refusal::of(7));
    }
    Ok(change)
}

/// Answers 6 and 13 of a message about a label. A Mapping of a label that is given has to have its entry.
fn judge_label(image: &[u8], head: &Head, read: &Message, msg: &[u8], list: &[u8]) -> Result<Change, Refusal> {
    let standing = Standing::find(list, list, read.label, labels::side_sending(read.kind));
    if !labels::may_send(read.kind, &standing) || is_held(image, head, read) {
        return Err(Refusal::of(6));
    }
    if read.kind != kinds::MAPPING {
        return Ok(Change::Label(standing));
    }
    let entry = index::entry_of(message::fec(read, msg));
    match standing.place {
        Some(place) if index::entry_at(image, place) == entry => Ok(Change::Label(standing)),
        Some(_) => Err(Refusal::of(6)),
        None => standing.room.map(|place| Change::Give(standing, place, entry)).ok_or(Refusal::of(13)),
    }
}

/// Answers 6, 14, 15 and 13 of a Request; the place of its word.
fn judge_request(image: &[u8], head: &Head, phase: u32, read: &Message, list: &[u8]) -> Result<usize, Refusal> {
    if requests::find(list, image::ids(image), read.message_id).is_some() {
        return Err(Refusal::of(6));
    }
    if head.stopped {
        return Err(Refusal::of(14));
    }
    if phase != phase::UP_FT {
        return Err(Refusal::of(15));
    }
    labels::first_free(list).ok_or(Refusal::of(13))
}

/// True where a Withdraw or Release of the same kind and label is still held.
fn is_held(image: &[u8], head: &Head, read: &Message) -> bool {
    read.kind != kinds::MAPPING
        && (0..head.held).any(|after| {
            let slot = image::block(image, head.block_of(after));
            image::slot_kind(slot) == read.kind && image::slot_label(slot) == read.label
        })
}

pub fn keepalive(image: &[u8], session: Session, message_id: u32, out: &mut [u8]) -> Result<Outcome, Refusal> {
    let head = enter(image, session, &[phase::UP_FT, phase::UP_PLAIN])?;
    let ack = head.kept.then_some(head.secured);
    let length = write::KEEPALIVE + if head.kept { write::FT_TLV } else { 0 };
    let out = out.get_mut(..length).ok_or(Refusal::of(9))?;
    write::keepalive(out, message_id, ack);
    Ok(Outcome { length: length as u32, ..done(session) })
}
