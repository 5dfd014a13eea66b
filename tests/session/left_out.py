"""Messages that are left out, from ticket 3 of 02: numbers that jump, and Requests that a re-issue passes over. Parts of the script that make.py writes."""

from answers import bare_address, status
from pair import COPY, KEPT, P1, P2
from paper.calls import RESUMED
from paper.image import SLOTS, state_of
from paper.numbers import LAST, advance
from paper.wire import ABORT, ADDRESS, MAPPING, REQUEST, WITHDRAW, protection_tlv

NO_ROUTE = 0x0D
# How far ahead of S, the answer on an unresumed connection, and on a resumed one the answer and how many were left out.
JUMPS = ((0, 20, 20, 0), (1, 0, 0, 0), (2, 20, 0, 1), (64, 20, 0, 63), (65, 20, 20, 0), (LAST - 1, 20, 20, 0))


def jumps(p):
    """ "On a resumed connection accept a number 1 to 64 steps ahead of S. .. 20 is given only for numbers outside that range, or on an unresumed connection for
    any but the successor." """
    p.title("numbers that jump")
    p.fresh()
    for secured in (0, 1, LAST - 1):
        p.copy(KEPT, P1)
        p.numbered(KEPT, secured=secured)
        for ahead, unresumed, resumed, left_out in JUMPS:
            n = advance(secured, ahead)
            for phase, answer, count in ((("UpFT", 0), unresumed, 0), (("UpFT", 0, RESUMED), resumed, left_out)):
                p.put(KEPT, phase)
                p.copy(COPY, KEPT)
                p.receive(COPY, f"S {secured}, {' '.join(map(str, phase))}, receive {n}", bare_address(protection_tlv(n)))
                p.answered(30 if n == 0 else answer)
                assert p.last.left_out == count
                if p.last.answer == 0:
                    p.counts(COPY, "P1")


def passes(p, kind, number, left_out=0):
    """P1 sends: what goes out, and how many were left out before it; P2 says the same of its number."""
    p.send(P1, "P1 send")
    p.bears(kind, number)
    p.passed_over(left_out)
    p.arrive(P2)
    p.passed_over(left_out)


def undone(p):
    """Request, break, Abort, resume. 9 changes nothing, and 8 comes only after the Abort."""
    p.title("an Abort after a break")
    p.fresh()
    p.request(P1, 1)
    p.send_lost(P1)
    p.lose()
    p.abort(P1, 1)
    p.both()
    p.connect()
    p.both()
    p.send(P1, "P1 send, room 35", 35)
    p.answered(9)
    p.counts(P1, "P1")
    passes(p, ABORT, 2, 1)
    p.send_lost(P1)
    p.answered(8)
    p.both()
    p.alive(P2)
    p.both()


def before_its_number(p):
    """ "only a numbered Request": one that is pended goes out though its Abort waits, on a fresh connection and on a resumed one."""
    for title in ("a pended Request and its Abort", "a pended Request and its Abort, resumed"):
        p.title(title)
        p.fresh()
        if "resumed" in title:
            p.lose()
            p.connect()
        p.request(P1, 1)
        p.abort(P1, 1)
        passes(p, REQUEST, 1)
        passes(p, ABORT, 2)
    p.title("sent on this connection before its Abort")
    p.request(P1, 2)
    passes(p, REQUEST, 3)
    p.abort(P1, 2)
    passes(p, ABORT, 4)
    p.alive(P2)
    p.both()


def in_mid_reissue(p):
    """An Abort that is queued in mid re-issue counts for the Requests that have not been sent again."""
    p.title("an Abort in mid re-issue")
    p.fresh()
    p.request(P1, 1)
    p.address(P1)
    p.request(P1, 2)
    p.request(P1, 3)
    for _ in range(4):
        p.send_lost(P1)
    p.lose()
    p.connect()
    passes(p, REQUEST, 1)
    p.abort(P1, 1)
    p.abort(P1, 3)
    passes(p, ADDRESS, 2)
    passes(p, REQUEST, 3)
    passes(p, ABORT, 5, 1)
    p.send_lost(P1)
    p.both()
    p.title("and once more")
    p.lose()
    p.connect()
    passes(p, ABORT, 6)
    p.alive(P2)
    p.both()


def others(p):
    """Left out is a Request alone, by an Abort behind it, of its own ID. An offer and its Withdraw go out."""
    p.title("what is not left out")
    p.fresh()
    p.request(P1, 1)
    p.abort(P1, 1)
    p.request(P1, 1)
    p.request(P1, 2)
    p.mapping(P1, 107)
    p.withdraw(P1, 107)
    for _ in range(6):
        p.send_lost(P1)
    p.lose()
    p.abort(P1, 2)
    p.connect()
    passes(p, ABORT, 2, 1)
    passes(p, REQUEST, 3)
    passes(p, MAPPING, 5, 1)
    passes(p, WITHDRAW, 6)
    passes(p, ABORT, 7)
    p.both()


def asked_twice(p):
    """ "of two Requests of one ID before an Abort each is left out" """
    p.title("two Requests of one ID, and its Abort")
    p.fresh()
    p.request(P1, 7)
    p.send_lost(P1)
    p.receive(P1, "P1 receive status", status(NO_ROUTE, about=7))
    p.request(P1, 7)
    p.send_lost(P1)
    p.abort(P1, 7)
    p.lose()
    p.connect()
    passes(p, ABORT, 3, 2)
    p.alive(P2)
    p.both()


def full_ring(p):
    """63 Requests of one ID, then its Abort: all are left out at once. They keep their slots, the bound of 64 and the refusal for room count them, until an ACK passes them."""
    p.title("a full ring of which 63 are left out")
    p.fresh()
    for _ in range(3):
        p.address(P1)
        p.pass_on(P1)
    p.alive(P2)
    for i in range(SLOTS - 1):
        if i:
            p.receive(P1, "P1 receive status", status(NO_ROUTE, about=7))
        p.request(P1, 7)
        p.send_lost(P1)
    p.lose()
    p.abort(P1, 7)
    p.address(P1)
    p.answered(7)
    p.connect()
    p.both()
    p.send(P1, "P1 send, room 35", 35)
    p.answered(9)
    passes(p, ABORT, 3 + SLOTS, 63)
    p.address(P1)
    p.answered(7)
    p.alive(P2)
    p.both()
    p.address(P1)
    p.answered(0)
    passes(p, ADDRESS, 4 + SLOTS)


def over_the_end(p):
    """The wrap past 0xFFFFFFFF inside a jump: 0xFFFFFFFF and 1 are left out."""
    p.title("the end of the circle inside a jump")
    p.fresh()
    p.lose()
    p.numbered(P1, released=LAST - 1, issued=LAST - 1)
    p.numbered(P2, secured=LAST - 1)
    p.connect()
    for ident, n in ((8, LAST), (9, 1)):
        p.request(P1, ident)
        p.send_lost(P1)
        p.bears(REQUEST, n)
    p.lose()
    p.abort(P1, 9)
    p.abort(P1, 8)
    p.connect()
    passes(p, ABORT, 2, 2)
    passes(p, ABORT, 3)
    p.alive(P2)
    p.both()
    assert state_of(p.image[P1]).held == 0


PARTS = (jumps, undone, before_its_number, in_mid_reissue, others, asked_twice, full_ring, over_the_end)
