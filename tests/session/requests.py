"""Requests, their Aborts and what ends them, from ticket 2 of 02: parts of the script that make.py writes."""

from answers import bare_address, keepalive, status, with_label, without_label
from pair import COPY, KEPT, P1, P2, abort_message, label_message, notification, request_message
from paper.image import INDEX, REQUESTS, STOPPED, STOPPING
from paper.labels import COUNT
from paper.wire import ABORT, FEC, MAPPING, NO_RESOURCES, NOTIFICATION, RELEASE, REQUEST, RESOURCES, TYPE, WITHDRAW
from paper.wire import ack_tlv, message, protection_tlv, request_id_tlv, status_tlv, tlv

NO_ROUTE = 0x0D


def told(p, end):
    """ "stops new Requests": 'No label resources' needs no number."""
    p.receive(end, f"P{end} receive No Resources, unprotected", notification(NO_RESOURCES))
    p.answered(0)


def stopped(p):
    """ "That stops new Requests until a numbered "Label Resources Available" comes; both ends remember this over a break" """
    p.title("Requests stopped")
    p.fresh(on_demand=True)
    p.request(P1, 1)
    p.request(P1, 2)
    p.pass_on(P1)
    p.stop(P2)
    p.marked(P2, STOPPING)
    p.pass_on(P2)
    p.marked(P1, STOPPED)
    p.request(P1, 3, 14)
    p.request(P1, 1, 6)
    p.pass_on(P1)
    p.abort(P1, 1)
    p.title("over a break")
    p.lose()
    p.request(P1, 3, 14)
    p.connect()
    p.request(P1, 3, 14)
    p.title("over a power cut")
    for end in (P1, P2):
        p.restore(end, f"P{end} restore")
    p.marked(P1, STOPPED)
    p.marked(P2, STOPPING)
    p.request(P1, 3, 14)
    p.connect()
    p.request(P1, 3, 14)
    p.both()


def resumed(p):
    """4 goes when Submit takes 'Label Resources Available', 2 when it comes, numbered."""
    p.title("Requests resumed")
    p.resume(P2)
    p.marked(P2, 0)
    p.send_lost(P2)
    p.request(P1, 3, 14)
    p.lose()
    p.connect()
    p.request(P1, 3, 14)
    p.pass_on(P2)
    p.marked(P1, 0)
    p.request(P1, 3)
    p.both()
    p.copy(COPY, P1)
    p.receive(COPY, "P1 receive Resources Available, unprotected", notification(RESOURCES))
    p.answered(33, "Idle")


def forgotten(p):
    """ "and forget it when state is released" """
    p.title("stopped, then time passes")
    told(p, P1)
    p.stop(P2)
    p.request(P1, 4, 14)
    p.lose()
    p.wait(5_000)
    p.connect()
    p.marked(P1, 0)
    p.marked(P2, 0)
    p.request(P1, 4)
    p.title("stopped, then a fresh start")
    told(p, P1)
    p.stop(P1)
    p.marked(P1, STOPPED | STOPPING)
    p.request(P1, 5, 14)
    p.lose()
    p.format(P2, "P2 format")
    p.connect()
    p.marked(P1, 0)
    p.request(P1, 4)
    p.holds(P1, (4,))
    p.both()


def full_of_requests(p):
    """As many as there are words; the first has the ID 0."""
    p.title(f"{COUNT} open Requests")
    p.fresh()
    for ident in range(COUNT):
        p.request(P1, ident)
        p.pass_on(P1)
        if ident % 60 == 59:
            p.alive(P2)
    p.request(P1, COUNT, 13)
    p.request(P1, 0, 6)
    p.mapping(P1, 16, 13)
    p.both()
    for i in (0, COUNT - 1, COUNT, COUNT + 1):
        p.request_at(P1, f"P1 word {i}", i)
    for m, answer in (
        (label_message(MAPPING, 300, protection_tlv(1)), 21),
        (label_message(MAPPING, 300, request_id_tlv(COUNT)), 21),
        (label_message(MAPPING, 300, request_id_tlv(COUNT - 1)), 0),
        (label_message(MAPPING, 300, protection_tlv(1), request_id_tlv(COUNT - 1)), 0),
    ):
        p.copy(COPY, P1)
        p.receive(COPY, f"P1 receive {m.hex()}", m)
        p.answered(answer)
        p.request_at(COPY, f"P1 word {COUNT - 1}", COUNT - 1)
    # The word of the last Request is beside block 67: cut behind it, the Request is still open.
    p.stored(INDEX + 1, 0)
    p.copy(KEPT, P1)
    p.block(KEPT, INDEX + 1, COPY, INDEX + 1)
    p.restore(KEPT, "P1 restore, cut behind block 67")
    p.request_at(KEPT, f"P1 word {COUNT - 1}", COUNT - 1)
    p.indexed(KEPT)
    # 300 has that word now; a Mapping of another FEC moves it to the word of the Request that it names, and without one there is no room.
    for named, answer in (((), 21), ((request_id_tlv(0),), 0)):
        p.copy(KEPT, COPY)
        p.receive(KEPT, f"P1 receive Mapping 300 of another FEC, {answer}", with_label(MAPPING, 300, protection_tlv(2), *named))
        p.answered(answer)
    p.stored(0)
    p.holds(KEPT, (300, 3), *((i,) for i in range(1, COUNT - 1)))


# Submit's answer to a Request and to an Abort: the first of the reasons that apply, "6, 14, 15, 13, 7".
def answer_to_request(is_open, is_stopped, up, words_full, store_full):
    reasons = ((is_open, 6), (is_stopped, 14), (not up, 15), (words_full, 13), (store_full, 7))
    return next((answer for applies, answer in reasons if applies), 0)


def answer_to_abort(is_open, store_full):
    return 6 if not is_open else 7 if store_full else 0


def orders_of(p, is_stopped, words_full, store_full):
    """At KEPT is an image with the Request 1 open and none of 200; each phase, each ID."""
    for phase in (("UpFT", 0), ("Failed",), ("InitWait", 5_000)):
        p.put(KEPT, phase)
        for ident in (1, 200):
            p.copy(COPY, KEPT)
            p.submit(COPY, f"{phase[0]} Request {ident}", request_message(ident))
            p.answered(answer_to_request(ident == 1, is_stopped, phase[0] == "UpFT", words_full, store_full))
            p.copy(COPY, KEPT)
            p.submit(COPY, f"{phase[0]} Abort {ident}", abort_message(ident))
            p.answered(answer_to_abort(ident == 1, store_full))


def orders(p):
    """P1 has as many Requests open as there are words, and nothing held; then 64 held."""
    for store_full in (False, True):
        for words_full in (True, False):
            for is_stopped in (False, True):
                p.title(f"store full {store_full}, words full {words_full}, stopped {is_stopped}")
                p.copy(KEPT, P1)
                if not words_full:
                    p.receive(KEPT, "receive status", status(NO_ROUTE, about=COUNT - 1))
                if is_stopped:
                    told(p, KEPT)
                orders_of(p, is_stopped, words_full, store_full)
        if not store_full:
            for _ in range(64):
                p.address(P1)


# A Request ends, or does not: the message received by P1, the answer, and the words after it. The first free word is the third; 1 was aborted, 2 and 0 are open.
OPEN_2, OPEN_0 = (2,), (0,)
NEXT = protection_tlv(2)
BEFORE = ((300, 3), (1000, 6), 0, OPEN_2, OPEN_0)
ENDED = ((300, 3), (1000, 6), 0, 0, OPEN_0)
KEPT_OPEN = ((300, 3), 0, 0, OPEN_2, OPEN_0)


def mapping(label, ident, *tlvs):
    return label_message(MAPPING, label, request_id_tlv(ident), *tlvs)


ANSWERS = (
    # The Mapping takes its Request's word although an earlier one is free; unprotected under code 6.
    (0, mapping(301, 2, NEXT), ((300, 3), (1000, 6), 0, (301, 3), OPEN_0)),
    (0, mapping(301, 2), ((300, 3), (1000, 6), 0, (301, 6), OPEN_0)),
    (0, mapping(301, 0, NEXT), ((300, 3), (1000, 6), 0, OPEN_2, (301, 3))),
    # It names none, or one that is not open: the first free word.
    (0, with_label(MAPPING, 301, NEXT), ((300, 3), (1000, 6), (301, 3), OPEN_2, OPEN_0)),
    (0, mapping(301, 1, NEXT), ((300, 3), (1000, 6), (301, 3), OPEN_2, OPEN_0)),
    # The label has a word, or is below 16.
    (0, mapping(300, 2, NEXT), ENDED),
    (0, mapping(1000, 2), ENDED),
    (0, mapping(3, 2, NEXT), ENDED),
    (0, mapping(15, 2), ENDED),
    # A Notification with E clear, whatever its status; it names the ID 0 too.
    (0, status(NO_ROUTE, about=2), ENDED),
    (0, status(0x40000000, NEXT, about=2), ENDED),
    (0, status(0x0E, about=2), ENDED),
    (0, status(0x0F, NEXT, about=2), ENDED),
    (0, status(NO_ROUTE), ((300, 3), (1000, 6), 0, OPEN_2, 0)),
    (0, status(NO_ROUTE, about=1), BEFORE),
    (0, message(NOTIFICATION, 2), BEFORE),
    # Other messages end none: the peer's own Request and Abort, and what bears such a TLV beside.
    (0, message(TYPE[REQUEST], 2, tlv(FEC, b"")), BEFORE),
    (0, without_label(ABORT, request_id_tlv(2)), BEFORE),
    (0, with_label(WITHDRAW, 300, request_id_tlv(2), NEXT), ((300, 4), (1000, 6), 0, OPEN_2, OPEN_0)),
    (0, with_label(RELEASE, 300, request_id_tlv(2), NEXT), BEFORE),
    (0, bare_address(request_id_tlv(2), NEXT), BEFORE),
    (0, keepalive(status_tlv(NO_ROUTE, 2)), BEFORE),
    # A message that is turned away ends none.
    (20, mapping(301, 2, protection_tlv(3)), KEPT_OPEN),
    (20, status(NO_ROUTE, protection_tlv(3), about=2), KEPT_OPEN),
    (22, mapping(301, 2, request_id_tlv(2), NEXT), KEPT_OPEN),
    (33, mapping(300, 2), ()),
    (33, status(0x0F, about=2), ()),
    (32, mapping(1000, 2, NEXT), ()),
    (34, mapping(301, 2, NEXT, ack_tlv(9)), ()),
    (36, status(0x8000000D, about=2), ()),
)


def ended(p):
    p.title("what ends a Request")
    p.fresh()
    p.mapping(P2, 300)
    p.pass_on(P2)
    p.unprotected(1000)
    for ident in (1, 2):
        p.request(P1, ident)
        p.stored(ident, REQUESTS, 0)
    # The ID 0 stands in a new block 65 already.
    p.request(P1, 0)
    p.stored(3, 0)
    p.abort(P1, 1)
    p.stored(4, 0)
    p.holds(P1, *BEFORE)
    p.both()
    for answer, m, words in ANSWERS:
        p.copy(COPY, P1)
        p.receive(COPY, f"P1 receive {m.hex()}", m)
        p.answered(answer)
        p.holds(COPY, *words)
        p.counts(COPY, "P1")
        p.request_at(COPY, "P1 word 3", 3)


def over_breaks(p):
    """Open Requests outlast a break and a power cut, and are answered then."""
    p.title("open Requests over a break and a power cut")
    p.lose()
    p.holds(P1, *KEPT_OPEN)
    p.abort(P1, 0)
    p.request(P1, 3, 15)
    p.connect()
    p.restore(P1, "P1 restore")
    p.lose(P2)
    p.connect()
    p.request(P1, 2, 6)
    for _ in range(5):
        p.pass_on(P1)
    p.answer(P2, 2, 301)
    p.pass_on(P2, ack=True)
    p.holds(P1, (300, 3), 0, 0, (301, 3))
    p.both()


def asked_again(p):
    """Once a Request is answered or aborted, its ID may be asked again; the old messages are still held."""
    p.title("an ID asked again")
    p.fresh()
    p.request(P1, 7)
    p.stored(1, REQUESTS, 0)
    p.request(P1, 7, 6)
    p.abort(P1, 7)
    p.abort(P1, 7, 6)
    # The ID stands in the word's place already: block 65 has the same bytes.
    p.request(P1, 7)
    p.stored(3, 0)
    for _ in range(3):
        p.pass_on(P1)
    p.answer(P2, 7, 201)
    p.pass_on(P2)
    p.holds(P1, (201, 3))
    p.abort(P1, 7, 6)
    p.request(P1, 7)
    p.stored(4, REQUESTS, 0)
    p.holds(P1, (201, 3), (7,))
    p.both()
    p.copy(COPY, P1)
    p.restore(COPY, "P1 restore")
    p.answered(0, "Failed")


def cuts(p):
    """ "so a cut leaves the state before": with the slot stored, and with block 65 too."""
    p.title("a power cut in a Request")
    p.copy(KEPT, P1)
    slot = p.submit(P1, "P1 submit Request 8, power cut", request_message(8)).slot
    p.stored(slot, REQUESTS, 0)
    for stored in (slot, REQUESTS):
        p.block(KEPT, stored, P1, stored)
        p.counts(KEPT, "P1 in the store")
        p.copy(COPY, KEPT)
        p.restore(COPY, "P1 restore")
        p.stored()
        p.request_at(COPY, "P1 word 1", 1)
        p.request_at(COPY, "P1 word 2", 2)
        p.holds(COPY, (201, 3), (7,))
    p.title("after the power cut")
    p.copy(P1, COPY)
    p.lose(P2)
    p.connect()
    p.abort(P1, 8, 6)
    p.request(P1, 8)
    p.stored(p.last.slot, 0)
    p.abort(P1, 8)
    p.request(P1, 9)
    p.stored(p.last.slot, REQUESTS, 0)
    p.holds(P1, (201, 3), (7,), (9,))
    p.both()


def on_demand(p):
    """ "downstream on-demand mode (bit A of our Init, as Open says)": written, and kept nowhere."""
    p.title("bit A")
    p.format(P1, "P1 format")
    for proposal, a, flags, seconds in ((None, True, "80", "001e"), (5, True, "80", "0005"), (5, False, "00", "0005")):
        p.begin(P1, proposal, a)
        p.wrote(f"0200 001e 00000001 0500 000e 0001 001e {flags} 00 1000 0a000002 0000 8503 0004 0000 {seconds}")
        p.stored()
        p.lose(P1)


PARTS = (stopped, resumed, forgotten, full_of_requests, orders, ended, over_breaks, asked_again, cuts, on_demand)
