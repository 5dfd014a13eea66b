"""The end of a withdrawal, from ticket 4 of 02: parts of the script that make.py writes."""

from answers import keepalive, with_label
from pair import COPY, P1, P2
from paper.wire import FEC, MAPPING, RELEASE, TYPE, WITHDRAW, ack_tlv, message, protection_tlv, tlv

EVERY_RELEASED = message(TYPE[RELEASE], 9, tlv(FEC, b"\1"))


def withdrawn(p, label):
    """P1 has given the label and withdrawn it, and P2 is asked for it back; nothing is acknowledged."""
    p.fresh()
    p.mapping(P1, label)
    p.pass_on(P1)
    p.withdraw(P1, label)
    p.pass_on(P1)
    p.holds(P1, (label, 2))
    p.holds(P2, (label, 4))


def mapped_anew(p):
    """Before ticket 4 the ACK alone freed 16. P1's Mapping was taken, P2 stayed at 4, and its Release freed what P1 had just given: in the end neither listed
    16, with every answer 0. Now the Mapping is 6 until P2 has released the label."""
    p.title("a label mapped anew before its Release")
    withdrawn(p, 16)
    p.alive(P2)
    p.holds(P1, (16, 8))
    p.mapping(P1, 16, 6)
    p.withdraw(P1, 16, 6)
    p.release(P2, 16)
    p.pass_on(P2)
    p.holds(P1)
    p.both()
    p.mapping(P1, 16)
    p.pass_on(P1, ack=True)
    p.alive(P2)
    p.holds(P1, (16, 1))
    p.holds(P2, (16, 3))
    p.both()


def released_first(p):
    """P2 gives the label back on its own while P1 withdraws it: the two messages cross."""
    p.title("the Release before the ACK")
    p.fresh()
    p.mapping(P1, 16)
    p.pass_on(P1)
    p.release(P2, 16)
    p.withdraw(P1, 16)
    p.pass_on(P2)
    p.holds(P1, (16, 9))
    p.mapping(P1, 16, 6)
    p.withdraw(P1, 16, 6)
    p.pass_on(P1)
    p.holds(P2, (16, 5))
    p.alive(P2)
    p.holds(P1)
    p.alive(P1)
    p.holds(P2)
    p.both()


def together(p):
    """The ACK of the Withdraw and the Release in one message: the ACK acts first."""
    p.title("ACK and Release in one message")
    withdrawn(p, 16)
    p.release(P2, 16)
    p.pass_on(P2, ack=True)
    p.holds(P1)
    p.both()


# Messages that P1 receives with label 16 under each code; it has R 0, I 2 and S 0. The answer, and the words that are left: none where the state is released.
UNDER = {
    2: (
        (33, with_label(RELEASE, 16), None),
        # its own ACK makes 8 of 2
        (33, with_label(RELEASE, 16, ack_tlv(2)), None),
        (0, with_label(RELEASE, 16, protection_tlv(1)), [(16, 9)]),
        (0, with_label(RELEASE, 16, protection_tlv(1), ack_tlv(1)), [(16, 9)]),
        (0, with_label(RELEASE, 16, protection_tlv(1), ack_tlv(2)), []),
        (0, keepalive(ack_tlv(2)), [(16, 8)]),
    ),
    8: (
        (33, with_label(RELEASE, 16), None),
        (33, EVERY_RELEASED, None),
        (0, with_label(RELEASE, 17), [(16, 8)]),
        (0, with_label(MAPPING, 16, protection_tlv(1)), [(16, 8), (16, 3)]),
        (0, with_label(WITHDRAW, 16, protection_tlv(1)), [(16, 8)]),
        (0, message(TYPE[RELEASE], 9, tlv(FEC, b"\1"), protection_tlv(1)), []),
        (0, keepalive(ack_tlv(2)), [(16, 8)]),
    ),
    9: (
        (33, with_label(RELEASE, 16), None),
        (33, EVERY_RELEASED, None),
        (0, with_label(RELEASE, 16, protection_tlv(2)), [(16, 9)]),
        (0, message(TYPE[RELEASE], 9, tlv(FEC, b"\1"), protection_tlv(2)), [(16, 9)]),
        (0, keepalive(ack_tlv(1)), [(16, 9)]),
        (0, keepalive(ack_tlv(2)), []),
    ),
}


def under_each_code(p):
    """ "the rules that a label stands once on its side and that its Release is protected now cover them" """
    p.title("Releases and ACKs of a withdrawn label")
    for code, rows in UNDER.items():
        withdrawn(p, 16)
        if code == 8:
            p.alive(P2)
        if code == 9:
            p.receive(P1, "P1 receive Release 16", with_label(RELEASE, 16, protection_tlv(1)))
        p.holds(P1, (16, code))
        for answer, m, words in rows:
            p.copy(COPY, P1)
            p.receive(COPY, f"P1 receive {m.hex()}", m)
            p.answered(answer)
            p.holds(COPY, *(words or []))
            p.counts(COPY, "P1")


def over_a_break(p):
    """Which of the two has come is remembered."""
    p.title("a withdrawn label over a break and a power cut")
    withdrawn(p, 16)
    p.alive(P2)
    p.lose()
    p.holds(P1, (16, 8))
    p.mapping(P1, 16, 6)
    p.restore(P1, "P1 restore")
    p.holds(P1, (16, 8))
    p.connect()
    p.release(P2, 16)
    p.pass_on(P2)
    p.holds(P1)
    p.both()


def lost(p):
    """What ticket 4 leaves: a Mapping of a label that is given and a Release that was not asked for cross, a Withdraw behind the Mapping. P2 is asked for a label that
    P1 has free; mapped anew and given back, it is listed by neither, with every answer 0. Either of two rules for owners rules it out (docs/DECISIONS.md, 163)."""
    p.title("a label lost by a Mapping and a Release that cross")
    p.fresh()
    p.mapping(P1, 16)
    p.pass_on(P1)
    p.release(P2, 16)
    p.mapping(P1, 16)
    p.withdraw(P1, 16)
    p.pass_on(P2)
    p.holds(P1, (16, 9))
    p.pass_on(P1)
    p.pass_on(P1)
    p.holds(P2, (16, 4))
    p.alive(P2)
    p.alive(P1)
    p.holds(P1)
    p.mapping(P1, 16)
    p.pass_on(P1)
    p.holds(P1, (16, 1))
    p.holds(P2, (16, 4))
    p.release(P2, 16)
    p.pass_on(P2, ack=True)
    p.alive(P1)
    p.holds(P1)
    p.holds(P2)
    p.both()


PARTS = (mapped_anew, released_first, together, under_each_code, over_a_break, lost)
