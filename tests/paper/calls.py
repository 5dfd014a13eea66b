"""The ten calls, from the build paper's words "Events" and "What each answer does", and tickets 2, 3, 5 and 6 of 02. Times are milliseconds. UpFT on a resumed connection is ("UpFT", count sent, RESUMED).

Every call decodes the image, does what the paper says, and lays block 0 anew. What the paper says in a sentence is quoted."""

from .image import BLOCK, EARLIER_SIZES, FURTHER, REQUESTS, SIZE, SLOTS, STOPPED, STOPPING, State, block_of, further_blocks, held_message, refusal, slot_block, state_of
from .labels import Labels
from .message import Message, submission
from .numbers import acknowledged, advance, lesser, milliseconds, next_number, proposed, steps
from .wire import ABORT, ACK, ADDRESS, ADDRESS_WITHDRAW, INIT, KEEPALIVE, MAPPING, NO_RESOURCES, PARAMETERS, PROTECTION, RELEASE, REQUEST, REQUEST_ID, RESOURCES, SESSION, WITHDRAW
from .wire import ack_tlv, field, initialization, message, number, protection_tlv

LABEL_KINDS = (MAPPING, WITHDRAW, RELEASE)
RESUMED = "resumed"


def allowed(st, phase):
    """UpFT or Failed with kept 0, Idle or UpPlain with kept 1, count sent past I: ruled out."""
    if phase[0] == "UpFT":
        return st.kept == 1 and phase[1] <= steps(st.released, st.issued)
    return phase[0] == "InitWait" or st.kept == (phase[0] == "Failed")


class Outcome:
    """`further` are the further blocks whose bytes have changed, a bit each: 1 for block 65, 2 for 66, 4 for 67; `left_out` is of the peer's messages at Receive,
    of ours at Send."""

    def __init__(self, answer, phase, out=b"", slot=0, block=0, left_out=0):
        self.answer, self.phase, self.out, self.slot, self.block, self.left_out, self.further, self.block0 = answer, phase, out, slot, block, left_out, 0, False


RESTING = {0: ("Idle",), 1: ("Failed",)}


def call(rule):
    """Restore's checks and the phase first; then the rule, and what its answer leaves in block 0."""

    def made(image, phase, *rest):
        bad = refusal(image)
        if bad:
            return Outcome(bad[0], phase, block=bad[1])
        st, old, further = state_of(image), block_of(image, 0), [block_of(image, k) for k in FURTHER]
        o = Outcome(1, phase) if phase and not allowed(st, phase) else rule(image, st, phase, *rest)
        if 20 <= o.answer <= 23:
            st = state_of(old)
            st.labels.lose_connection()
            o.phase = RESTING[st.kept]
        if o.answer >= 30:
            st, o.phase = State(), ("Idle",)
        if o.answer == 0 or o.answer >= 20:
            image[:BLOCK] = getattr(o, "state", st).block()
        o.further, o.block0 = named(k for k, before in zip(FURTHER, further) if block_of(image, k) != before), block_of(image, 0) != old
        return o

    return made


def named(blocks):
    """Further blocks by their bits."""
    return sum(1 << FURTHER.index(k) for k in blocks)


def store_further(image, labels):
    """The IDs and entries as they are now: a block whose places have not changed keeps its bytes."""
    image[BLOCK * REQUESTS :] = further_blocks(labels)


def begun(st, phase, out=b""):
    """Done, with another state than that which was decoded."""
    o = Outcome(0, phase, out)
    o.state = st
    return o


def format_image(image):
    if len(image) != SIZE:
        return Outcome(12, ("Idle",))
    image[:] = State().block() + bytes(BLOCK * SLOTS) + further_blocks(Labels())
    o = Outcome(0, ("Idle",))
    o.further, o.block0 = named(FURTHER), True
    return o


def extend(image, stored):
    """An image of an earlier release, its `stored` bytes at the start: the blocks behind it are made, nothing else is looked at."""
    if len(image) != SIZE or stored not in EARLIER_SIZES:
        return 12
    image[stored:] = further_blocks(Labels())[stored - SIZE :]
    return 0


def restore(image):
    o = call(lambda im, st, ph: fail(st))(image, None)
    o.phase = o.phase or ("Idle",)
    return o


def fail(st):
    """Code 6 words are freed; Failed if kept, else Idle."""
    st.labels.lose_connection()
    return Outcome(0, RESTING[st.kept])


class Published:
    """A proposal in milliseconds, for an Init in the published form; one in the draft's form is the seconds. None is a proposal that is not given."""

    def __init__(self, millis=None):
        self.millis = millis


@call
def open_session(image, st, phase, ident, parameters, proposal, room):
    """Writes Init, R = kept, ACK = S, A as the parameters say, in the form that the owner names; then InitWait bears what it proposes."""
    if phase[0] not in ("Idle", "Failed"):
        return Outcome(1, phase)
    published = isinstance(proposal, Published)
    said = proposed(proposal.millis if published else proposal, published)
    out = initialization(ident, parameters, said, st.secured if st.kept else None, published)
    return Outcome(9, phase) if len(out) > room else Outcome(0, ("InitWait", milliseconds(said, published)), out)


@call
def keepalive(image, st, phase, ident, room):
    if phase[0] not in ("UpFT", "UpPlain"):
        return Outcome(1, phase)
    out = message(KEEPALIVE, ident, *([ack_tlv(st.secured)] if phase[0] == "UpFT" else []))
    return Outcome(9, phase) if len(out) > room else Outcome(0, phase, out)


@call
def connection_failed(image, st, phase):
    return fail(st) if phase[0] in ("InitWait", "UpFT", "UpPlain") else Outcome(1, phase)


@call
def time_passed(image, st, phase, elapsed):
    """Releases, then Idle, if the timeout isn't zero and elapsed seconds are at least it; else nothing changes. "Time passed counts milliseconds" (02)."""
    if phase[0] != "Failed":
        return Outcome(1, phase)
    if st.timeout and elapsed >= st.timeout:
        return begun(State(), ("Idle",))
    return Outcome(0, phase)


@call
def submit(image, st, phase, m):
    if not st.kept:
        return Outcome(1, phase)
    if not 8 <= len(m) <= 480:
        return Outcome(3, phase)
    answer, kind, label = submission(m)
    if answer:
        return Outcome(answer, phase)
    answer = accept(image, st, phase, Message(m), kind, label) or (7 if st.held == SLOTS else 0)
    if answer:
        return Outcome(answer, phase)
    slot = (st.first + st.held) % SLOTS + 1
    image[BLOCK * slot : BLOCK * (slot + 1)] = slot_block(m, kind, label)
    store_further(image, st.labels)
    st.held += 1
    st.marks = marked(st.marks, kind, STOPPING)
    return Outcome(0, phase, slot=slot)


def marked(marks, kind, mark):
    """'No label resources' sets a mark of byte 23, 'Label Resources Available' clears it."""
    return marks | mark if kind == NO_RESOURCES else marks & ~mark if kind == RESOURCES else marks


def accept(image, st, phase, read, kind, label):
    """6 for a Withdraw or Release too where one of the same label is held; then by the label's code."""
    if kind == REQUEST:
        return accept_request(st, phase, read.ident)
    if kind == ABORT:
        return 6 if st.labels.end(read.value(REQUEST_ID)) is None else 0
    if kind not in LABEL_KINDS:
        return 0
    held = [submission(held_message(image, st, i))[1:] for i in range(st.held)]
    return 6 if kind != MAPPING and (kind, label) in held else st.labels.accept(kind, label, read.entry())


def accept_request(st, phase, ident):
    """ "14, Requests stopped, after 6; 15, a Request outside UpFT, after 14; 13 also for a Request; 6 also for an ID already open" """
    if st.labels.asked(ident) is not None:
        return 6
    if st.marks & STOPPED:
        return 14
    return 15 if phase[0] != "UpFT" else st.labels.ask(ident)


def is_left_out(image, st, place):
    """ "Of ours only a numbered Request is left out, at every re-issue exactly if an Abort naming its message ID, queued after it, is held too" """
    held = [Message(held_message(image, st, i)) for i in range(place, st.held)]
    if place >= steps(st.released, st.issued) or held[0].kind() != REQUEST:
        return False
    return any(later.kind() == ABORT and later.value(REQUEST_ID) == held[0].ident for later in held[1:])


@call
def send_next(image, st, phase, ack, room):
    """The oldest not sent on this connection that is not left out; it is numbered if it has no number. One left out "counts as sent with the next message"."""
    if phase[0] != "UpFT":
        return Outcome(1, phase)
    if phase[1] >= st.held:
        return Outcome(8, phase)
    sent = phase[1]
    while is_left_out(image, st, sent):
        sent += 1
    n, m = advance(st.released, sent + 1), held_message(image, st, sent)
    added = protection_tlv(n) + (ack_tlv(st.secured) if ack else b"")
    out = m[:2] + field(number(m[2:4]) + len(added), 2) + m[4:] + added
    if len(out) > room:
        return Outcome(9, phase)
    if sent >= steps(st.released, st.issued):
        st.issued = n
    return Outcome(0, ("UpFT", sent + 1, *phase[2:]), out, left_out=sent - phase[1])


def apply_ack(image, st, ack):
    """How many messages an ACK releases, each with what that makes of its label; None where it is wrong."""
    count = acknowledged(st.released, st.issued, ack)
    for i in range(count or 0):
        _, kind, label = submission(held_message(image, st, i))
        if kind in LABEL_KINDS:
            st.labels.acknowledge(kind, label)
    if count is not None:
        st.released, st.first, st.held = ack, (st.first + count) % SLOTS, st.held - count
    return count


@call
def init_received(image, st, phase, m):
    if phase[0] != "InitWait":
        return Outcome(1, phase)
    read = Message(m)
    if read.bad or read.type != INIT:
        return Outcome(22, phase)
    again = read.reconnects()
    if not read.has(PARAMETERS) or (again and not read.has(ACK)):
        return Outcome(23, phase)
    if not read.has(SESSION):
        return begun(State(), ("UpPlain",))
    given = read.tlvs[PARAMETERS]
    peers = number(given[2:4]), number(given[6:8])
    resumed = again and st.kept
    if resumed:
        if peers != (st.keepalive, st.maxpdu):
            return Outcome(35, phase)
        if apply_ack(image, st, read.value(ACK)) is None:
            return Outcome(34, phase)
    else:
        st = State()
        st.kept, (st.keepalive, st.maxpdu) = 1, peers
    st.timeout = lesser(phase[1], read.milliseconds())
    return begun(st, ("UpFT", 0, *[RESUMED] * resumed))


@call
def receive(image, st, phase, m):
    if phase[0] not in ("UpFT", "UpPlain"):
        return Outcome(1, phase)
    read = Message(m)
    if read.bad or read.type == INIT:
        return Outcome(22, phase)
    if read.fatal():
        return Outcome(36, phase)
    if phase[0] == "UpPlain":
        return Outcome(31 if read.bears_ft() else 0, phase)
    protected = read.has(PROTECTION)
    if protected and read.value(PROTECTION) == 0:
        return Outcome(30, phase)
    count = apply_ack(image, st, read.value(ACK)) if read.has(ACK) else 0
    if count is None:
        return Outcome(34, phase)
    turn, left_out = next_number(st.secured, read.value(PROTECTION), RESUMED in phase) if protected else (0, 0)
    answer = judge(st, read, protected, turn, state_of(image).labels.words)
    if answer:
        return Outcome(answer, phase)
    store_further(image, st.labels)
    if protected:
        st.secured = read.value(PROTECTION)
    return Outcome(0, ("UpFT", max(phase[1] - count, 0), *phase[2:]), left_out=left_out)


def judge(st, read, protected, turn, old):
    """Protection missing (33) or wrong (32), the number not in turn (20), no word for the label (21): else the labels have changed, and a Request
    that a Mapping or a Notification names has ended, "the Mapping taking its word if the label has none". `old` are the words before the ACK."""
    kind = read.kind()
    if kind in (ADDRESS, ADDRESS_WITHDRAW, RESOURCES) and not protected:
        return 33
    answer = st.labels.judge(kind, read.touched(), protected) if kind in LABEL_KINDS else 0
    if answer or turn:
        return answer or turn
    st.marks = marked(st.marks, kind, STOPPED)
    request = st.labels.end(read.answered())
    return st.labels.take(kind, read.touched(), protected, request, old, read.entry()) if kind in LABEL_KINDS else 0
