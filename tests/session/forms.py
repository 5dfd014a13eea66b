"""Both forms of FT Session: the draft's, 4 bytes with seconds, and the published one of RFC 3479, 12 bytes with milliseconds. From ticket 5 of 02, and RFC 3479's layout:
flags (2: R 8000, S 0008, A 0004, C 0002, L 0001), reserved (2), FT reconnect timeout (4), recovery time (4)."""

from answers import init, own
from pair import COPY, P1, P2, label_message
from paper.calls import Published
from paper.wire import MAPPING, SESSION, ack_tlv, tlv

OWN_PARAMETERS = "0500 000e 0001 001e 00 00 1000 0a000002 0000"


def session(text):
    """FT Session by the bytes of its value."""
    return tlv(0x8000 | SESSION, bytes.fromhex(text))


def written(p):
    """Our Init: "setting S alone of its new flags, Recovery Time to 0"."""
    p.title("our Init in the published form")
    p.format(P1, "P1 format")
    for proposal, millis in ((Published(), "00007530"), (Published(0), "00000000"), (Published(1), "00000001"), (Published(65_535_001), "03e7fc19"), (Published(4_294_967_294), "fffffffe")):
        p.begin(P1, proposal)
        p.wrote(f"0200 0026 00000001 {OWN_PARAMETERS} 8503 000c 0008 0000 {millis} 00000000")
        p.stored()
        p.lose(P1)
    p.fresh(Published(5_250), 5)
    p.mapping(P2, 300)
    p.pass_on(P2)
    p.lose()
    p.begin(P1, Published(5_250))
    p.wrote(f"0200 002e 00000001 {OWN_PARAMETERS} 8503 000c 8008 0000 00001482 00000000 0504 0004 00000001")


def agreed(p):
    """ "the lesser-timeout rule .. over the unit": whichever form either end names. The last millisecond that keeps, and the first that releases."""
    p.title("timeouts of both forms")
    for ours, theirs, millis in (
        (5, Published(5_250), 5_000),
        (Published(4_750), 5, 4_750),
        (0, Published(250), 250),
        (Published(250), 0, 250),
        (Published(1), Published(2), 1),
        (Published(65_535_001), 65535, 65_535_000),
        (Published(), None, 30_000),
        (None, Published(), 30_000),
    ):
        p.fresh(ours, theirs)
        p.lose()
        p.wait(millis - 1)
        p.answered(0, "Failed")
        p.wait(millis)
        p.answered(0, "Idle")
    for ours, theirs in ((0, Published(0)), (Published(0), Published(0))):
        p.fresh(ours, theirs)
        p.lose()
        p.wait(4_294_967_295)
        p.answered(0, "Failed")


def changed(p):
    """The form belongs to the call of Open: another on the next connection, and what is held is sent again."""
    p.title("another form on the next connection")
    p.fresh(5, Published(6_000))
    p.mapping(P1, 16)
    p.send_lost(P1)
    p.lose()
    p.connect(Published(2_500), 3)
    p.pass_on(P1)
    p.alive(P2)
    p.holds(P1, (16, 1))
    p.holds(P2, (16, 3))
    p.lose()
    p.wait(2_499)
    p.answered(0, "Failed")
    p.connect(None, 0)
    p.lose()
    p.wait(29_999)
    p.answered(0, "Failed")
    p.wait(30_000)
    p.answered(0, "Idle")


# The peer's FT Session by its bytes, and the milliseconds that are agreed where we propose to keep the state for ever: "heeding R alone".
HEEDED = (
    ("0000 0005", 5_000),
    ("7fff 0005", 5_000),
    ("0000 0000 00001388 00000000", 5_000),
    ("0008 0000 00001388 00000000", 5_000),
    ("7fff ffff 00001388 ffffffff", 5_000),
    ("0000 0005 00000001 00000000", 1),
    ("0008 0000 ffffffff 00000000", 4_294_967_295),
)


def heeded(p):
    p.title("what of FT Session is read")
    for text, millis in HEEDED:
        p.format(P1, "P1 format")
        p.begin(P1, 0)
        p.init(P1, f"P1 init {text}", init(own(), session(text)))
        p.answered(0, "UpFT")
        p.lose(P1)
        p.wait(millis - 1)
        p.answered(0, "Failed")
        p.wait(millis)
        p.answered(0, "Idle")


def malformed(p):
    """Any other length is malformed, in every message; so is a second FT Session, of either form."""
    p.title("FT Session of other lengths")
    p.format(P1, "P1 format")
    p.begin(P1)
    four, twelve = "0000 0005", "0008 0000 00001388 00000000"
    for tlvs in (*([session("00" * n)] for n in (0, 2, 3, 5, 8, 11, 13, 16)), [session(four), session(twelve)], [session(twelve), session(twelve)]):
        p.copy(COPY, P1)
        p.init(COPY, "P1 init", init(own(), *tlvs))
        p.answered(22, "Idle")
    p.fresh()
    for n, answer in ((4, 0), (8, 22), (12, 0), (13, 22)):
        p.copy(COPY, P1)
        p.receive(COPY, f"P1 receive Mapping with FT Session of {n}", label_message(MAPPING, 300, session("00" * n)))
        p.answered(answer)
        p.copy(COPY, P1)
        p.submit(COPY, f"P1 submit Mapping with FT Session of {n}", label_message(MAPPING, 300, session("00" * n)))
        p.answered(4 if answer else 5)


def resumed(p):
    """R is the top bit in both forms, and wants an ACK."""
    p.title("R of the published form")
    p.fresh()
    p.lose()
    p.begin(P1, 5)
    for text, tlvs, answer, phase in (
        ("8008 0000 00001388 00000000", [], 23, "Failed"),
        ("8000 0000 00001388 00000000", [ack_tlv(0)], 0, "UpFT"),
        ("8008 0000 00001388 00000000", [ack_tlv(1)], 34, "Idle"),
    ):
        p.copy(COPY, P1)
        p.init(COPY, f"P1 init {text}", init(own(), session(text), *tlvs))
        p.answered(answer, phase)


PARTS = (written, agreed, changed, heeded, malformed, resumed)
