#!/usr/bin/env python3
"""The script that session_cases plays, and the lines that it prints: what a cabinet written from the build paper (tests/paper) makes of it.

    tests/session/make.py            writes crates/session_cases/{stdin,stdout}
    tests/session/make.py --check    fails where a stored file is another
"""
import pathlib
import sys

sys.dont_write_bytecode = True
sys.path.append(str(pathlib.Path(__file__).resolve().parents[1]))
import forms  # noqa: E402
import left_out  # noqa: E402
import prefixes  # noqa: E402
import requests  # noqa: E402
import withdrawals  # noqa: E402
from answers import INITS, PLAIN, RECEIVED, RECEIVED_BY_BYTES, SUBMITTED, SUBMITTED_BY_BYTES, TWO_FAULTS, init, own, with_label  # noqa: E402
from pair import AN_ADDRESS, COPY, KEPT, P1, P2, SHORT, Pair, label_message, request_message  # noqa: E402
from paper.image import BLOCK, INDEX, REQUESTS, SIZE, block_of, sealed, state_of  # noqa: E402
from paper.labels import COUNT, word  # noqa: E402
from paper.wire import ABORT, ADDRESS, FEC, MAPPING, RELEASE, REQUEST, TYPE, WITHDRAW, ack_tlv, message, protection_tlv, session_tlv, tlv  # noqa: E402
from player import LINES, SCRIPT  # noqa: E402
from stored import settle  # noqa: E402

# How many bytes of a script session_cases reads.
ROOM = 180224


def before(p):
    p.title("before the example")
    p.fresh(on_demand=True)
    for _ in range(26):
        p.address(P1)
        p.pass_on(P1)
    for _ in range(2):
        for _ in range(46):
            p.address(P2)
            p.pass_on(P2)
        p.alive(P1)
    p.alive(P2)
    p.both()


def send_as(p, end, kind, number, ack=None, lost=False):
    """Sends what the draft's line says: the type, "senders FT sequence number, FT ACK number"."""
    p.send(end, f"P{end} send, lost" if lost else f"P{end} send", ack=ack is not None)
    p.bears(kind, number, ack)


def example(p):
    """The draft's section 7.1. The Requests of L1, L2, L3, L4 have the IDs 1 to 4; L1 and L2 get the labels 201 and 202."""
    p.title("the example")
    p.title("note 1")
    p.request(P1, 1)
    p.request(P1, 2)
    send_as(p, P1, REQUEST, 27)
    p.arrive(P2)
    p.title("note 2")
    p.request(P2, 3)
    send_as(p, P1, REQUEST, 28)
    send_as(p, P2, REQUEST, 93, 27)
    p.arrive(P1)
    p.arrive(P2)
    p.title("note 4")
    p.answer(P2, 1, 201)
    send_as(p, P2, MAPPING, 94, 28)
    p.arrive(P1)
    p.holds(P1, (201, 3), (2,))
    p.title("note 5")
    p.answer(P2, 2, 202)
    send_as(p, P2, MAPPING, 95, lost=True)
    p.title("note 6")
    p.address(P1)
    send_as(p, P1, ADDRESS, 29)
    p.arrive(P2)
    p.title("note 7")
    p.request(P1, 4)
    send_as(p, P1, REQUEST, 30, lost=True)
    p.title("note 8")
    p.keepalive(P1, "P1 keepalive, lost")
    p.wrote("0201 000c 00000002 0504 0004 0000005e")
    p.title("note 9")
    p.abort(P2, 3)
    send_as(p, P2, ABORT, 96, lost=True)
    p.both()


def recovery(p):
    p.title("its recovery")
    p.title("note 10")
    p.lose()
    p.title("note 11")
    p.withdraw(P2, 201)
    p.both()
    p.title("note 12")
    p.connect(on_demand=True)
    p.title("note 13")
    send_as(p, P1, REQUEST, 30)
    p.arrive(P2)
    p.title("note 14")
    send_as(p, P2, MAPPING, 95)
    p.arrive(P1)
    send_as(p, P2, ABORT, 96, 30)
    p.arrive(P1)
    p.title("note 15")
    send_as(p, P2, WITHDRAW, 97)
    p.arrive(P1)
    p.holds(P1, (201, 4), (202, 3), (4,))
    p.holds(P2, 0, (201, 2), (202, 1))
    p.send_lost(P2)
    p.alive(P1)
    p.alive(P2)
    p.holds(P2, 0, (201, 8), (202, 1))
    p.both()
    p.release(P1, 201)
    p.pass_on(P1, ack=True)
    p.holds(P2, 0, 0, (202, 1))
    p.both()


def restart(p):
    p.title("a power cut")
    p.unprotected(300)
    p.mapping(P1, 105)
    p.pass_on(P1)
    p.address(P1)
    p.send_lost(P1)
    p.copy(KEPT, P1)
    slot = p.submit(P1, "P1 submit Mapping 106, power cut", label_message(MAPPING, 106)).slot
    p.block(KEPT, slot, P1, slot)
    p.counts(P1, "P1 in memory")
    p.counts(KEPT, "P1 in the store")
    p.copy(P1, KEPT)
    p.restore(P1, "P1 restore")
    p.lose(P2)
    p.title("after the power cut")
    p.both()
    p.connect()
    p.pass_on(P1, ack=True)
    p.mapping(P1, 106)
    p.pass_on(P1)
    p.alive(P2)
    p.both()


def net_zero(p):
    p.title("a net-zero pair")
    p.fresh()
    p.mapping(P1, 107)
    p.withdraw(P1, 107)
    p.send_lost(P1)
    p.send_lost(P1)
    p.both()
    p.lose()
    p.connect()
    p.pass_on(P1)
    p.pass_on(P1)
    p.alive(P2)
    p.both()


def timeouts(p):
    p.title("timeouts")
    p.fresh()
    p.mapping(P1, 16)
    p.lose()
    p.wait(4_999)
    p.answered(0, "Failed")
    p.wait(5_000)
    p.answered(0, "Idle")
    p.fresh(0, 0)
    p.lose()
    p.wait(4_294_967_295)
    p.connect(0, 5)
    p.lose()
    p.wait(4_999)
    p.wait(5_000)
    p.connect(65535, 0)
    p.lose()
    p.wait(65_534_999)
    p.wait(65_535_000)
    # 02: "The proposal used where the owner gives none becomes 30."
    p.fresh(None, None)
    p.lose()
    p.wait(29_999)
    p.answered(0, "Failed")
    p.wait(30_000)
    p.answered(0, "Idle")
    # A stored timeout changes only with the next Init: 5 of the peer's are agreed at the first, and 30 again once neither gives one.
    p.fresh(None, 5)
    p.lose()
    p.wait(4_999)
    p.answered(0, "Failed")
    p.connect(None, None)
    p.lose()
    p.wait(5_000)
    p.answered(0, "Failed")
    p.wait(30_000)
    p.answered(0, "Idle")


def lengths(p):
    p.title("lengths")
    p.fresh()
    for size, answer in ((480, 0), (481, 3)):
        p.submit(P1, f"P1 submit {size} bytes", message(TYPE[ADDRESS], 4, tlv(0x0101, bytes(size - 12))))
        p.answered(answer)
    p.submit(P1, "P1 submit 8 bytes", message(TYPE[ADDRESS], 4))
    p.submit(P1, "P1 submit 7 bytes", message(TYPE[ADDRESS], 4)[:7])
    for room in (495, 496):
        p.send(P1, f"P1 send, room {room}", room, True)
    p.counts(P1, "P1")


def on_copies(p, word, step, rows):
    for answer, m in rows:
        p.copy(COPY, P1)
        step(COPY, f"P1 {word} {m.hex()}", m)
        p.answered(answer)
        p.counts(COPY, "P1")


def full_labels(p):
    """The Mapping of a label that has code 1 needs no word. One received that moves its label needs one (ticket 6)."""
    p.title("the full label list")
    p.fresh()
    p.mapping(P1, 100)
    for i in range(COUNT - 1):
        p.unprotected(1001 + i)
    p.mapping(P1, 101, 13)
    p.mapping(P1, 100)
    p.both()
    on_copies(p, "receive", p.receive, ((21, label_message(MAPPING, 1123)), (20, with_label(MAPPING, 1123, protection_tlv(2)))))
    on_copies(p, "receive", p.receive, ((21, with_label(MAPPING, 1001)), (0, label_message(MAPPING, 1001))))


def full_store(p):
    """Two Mappings are held, and the label list is still full: "6, 13, 7"."""
    p.title("the full store")
    for answer in (*[0] * 62, 7):
        p.address(P1)
        p.answered(answer)
    p.mapping(P1, 101, 13)
    p.withdraw(P1, 101, 6)
    p.both()
    for _ in range(64):
        p.pass_on(P1)
    p.send_lost(P1)
    p.alive(P2)
    p.address(P1)
    p.both()


def still_held(p):
    """ "same label's Withdraw/Release of that kind still held": the label's code alone would allow the second one."""
    p.title("a Withdraw and a Release still held")
    p.fresh()
    p.mapping(P1, 110)
    p.pass_on(P1)
    p.release(P2, 110)
    p.pass_on(P2)
    p.mapping(P1, 110)
    p.pass_on(P1)
    p.holds(P2, (110, 3))
    p.release(P2, 110, 6)
    p.both()
    p.alive(P1)
    p.release(P2, 110)
    p.withdraw(P1, 110)
    # No run leaves a label at code 1 while its Withdraw is held; an image that says so is sound.
    state = state_of(p.image[P1])
    state.labels.words[0] = word(110, 1)
    p.lay(P1, 0, state.block())
    p.withdraw(P1, 110, 6)
    p.both()


def messages(p):
    p.title("messages received")
    p.fresh()
    p.address(P1)
    p.pass_on(P1)
    p.mapping(P2, 201)
    p.pass_on(P2, ack=True)
    p.mapping(P1, 101)
    p.send_lost(P1)
    p.unprotected(1000)
    p.both()
    on_copies(p, "receive", p.receive, RECEIVED)
    p.title("two faults in a message")
    on_copies(p, "receive", p.receive, TWO_FAULTS)
    p.title("messages submitted")
    on_copies(p, "submit", p.submit, SUBMITTED)
    p.title("the paper's bytes")
    on_copies(p, "receive", p.receive, RECEIVED_BY_BYTES)
    on_copies(p, "submit", p.submit, SUBMITTED_BY_BYTES)


def every_call(p, title, copy=COPY):
    """The eight calls that are given a phase, each on a copy of KEPT."""
    p.title(title)
    for name, step, *rest in (
        ("open", p.open),
        ("keepalive", p.keepalive, 64),
        ("init", p.init, AN_ADDRESS),
        ("submit", p.submit, AN_ADDRESS),
        ("send", p.send, 64),
        ("receive", p.receive, AN_ADDRESS),
        ("connection failed", p.failed),
        ("time passed 0", p.time, 0),
    ):
        p.copy(copy, KEPT)
        step(copy, name, *rest)


def in_phases(p, title, *phases):
    for phase in phases:
        p.put(KEPT, phase)
        every_call(p, f"{title}, {' '.join(map(str, phase))}")


def altered(image, k, at, data):
    """A block of an image with other bytes at a place, and a check that fits them."""
    block = block_of(image, k)
    return sealed(block[:at] + data + block[at + len(data) : 508])


def refused_images(p):
    p.format(KEPT, "format")
    in_phases(p, "a new image", ("Idle",), ("Failed",), ("UpFT", 0), ("UpPlain",))
    p.copy(KEPT, P1)
    in_phases(p, "a kept session", ("Idle",), ("InitWait", 5_000), ("UpFT", 1), ("UpFT", 2), ("UpPlain",), ("Failed",))
    p.copy(KEPT, P1)
    every_call(p, f"an image of {SIZE - 1} bytes", SHORT)
    p.format(SHORT, "format")
    p.restore(SHORT, "restore")
    p.spoil(KEPT, 100, 0xAA)
    every_call(p, "block 0 spoiled")
    p.restore(KEPT, "restore")
    p.copy(KEPT, P1)
    p.spoil(KEPT, 1100, 0xAA)
    every_call(p, "the live slot spoiled")
    p.block(KEPT, 2, P1, 0)
    every_call(p, "the live slot another block")
    p.restore(KEPT, "restore")
    p.copy(KEPT, P1)
    p.spoil(KEPT, BLOCK * REQUESTS + 100, 0xAA)
    every_call(p, "block 65 spoiled")
    p.restore(KEPT, "restore")
    p.copy(KEPT, P1)
    # The last byte before the check, and the check that fits it.
    for at, byte in ((507, 1), (509, 2), (511, 255)):
        p.spoil(KEPT, BLOCK * REQUESTS + at, byte)
    every_call(p, "block 65 with a byte behind the IDs")
    p.format(KEPT, "format")
    p.spoil(KEPT, BLOCK * REQUESTS + 100, 0xAA)
    every_call(p, "block 65 of a new image spoiled")
    p.restore(KEPT, "restore")


def refused_index(p):
    """The entry of a label in use begins with 2, and a byte behind the entries of block 67, each with the check that fits it."""
    p.copy(KEPT, P1)
    p.lay(KEPT, INDEX, altered(p.image[KEPT], INDEX, 0, b"\2"))
    every_call(p, "block 66 with a bad entry")
    p.spoil(KEPT, BLOCK * INDEX + 100, 0xAA)
    p.restore(KEPT, "restore, block 66 spoiled")
    p.answered(10)
    for kept in (True, False):
        p.copy(KEPT, P1)
        if not kept:
            p.format(KEPT, "format")
        p.lay(KEPT, INDEX + 1, altered(p.image[KEPT], INDEX + 1, 507, b"\1"))
        p.restore(KEPT, "restore, block 67 with a byte behind the entries")
        p.answered(11)
        p.spoil(KEPT, BLOCK * (INDEX + 1) + 100, 0xAA)
        p.restore(KEPT, "restore, block 67 spoiled")
        p.answered(10)


def beginnings(p):
    p.title("Inits received")
    p.lose(P1)
    p.begin(P1)
    on_copies(p, "init", p.init, INITS)


def plain_session(p):
    p.title("a plain session")
    p.format(P1, "P1 format")
    p.begin(P1)
    p.wrote("0200 001e 00000001 0500 000e 0001 001e 00 00 1000 0a000002 0000 8503 0004 0000 0005")
    p.init(P1, "P1 init, no FT Session", init(own()))
    on_copies(p, "receive", p.receive, PLAIN)


# Block 0 of a kept session: R and I 5, S 9, first slot 62, none held, stopped, timeout 3,001 milliseconds, the peer's parameters 15 and 1500; label 16 given, a Request open,
# and 17 used in the last word. Block 65: the Request's ID is 0x01020304; those beside it do not count. Blocks 66 and 67: the entry of 16 is 10.0.0.0/8, that of 17
# 192.168.4.0/22; those beside the Request and behind the last word do not count.
BLOCK_0 = bytes.fromhex("00000002 00000005 00000005 00000009 003e 0000 0000 01 02 000f 05dc 00000bb9 00100010 00700000") + bytes(464) + bytes.fromhex("00300011 13cb 4f59")
BLOCK_65 = bytes.fromhex("01020304 01020304 01020304") + bytes(496) + bytes.fromhex("0c13 d9b5")
BLOCK_66 = bytes.fromhex("01080000 0a000000 ffffffff ffffffff") + bytes(492) + bytes.fromhex("0b09 def8")
BLOCK_67 = bytes(464) + bytes.fromhex("01160000 c0a80400 ffffffff ffffffff") + bytes(28) + bytes.fromhex("c5bf 7211")


# Withdraws and Releases of prefixes without a label: protection is missing where one of these has a label on the receiver's side.
BY_BYTES = ((33, WITHDRAW, "02 0001 16 c0a807"), (0, WITHDRAW, "02 0001 08 0a"), (33, RELEASE, "02 0001 08 0a"), (0, RELEASE, "02 0001 16 c0a804"))


def block_0(p):
    """Each field is read where the paper puts it."""
    p.title("block 0 and the further blocks by their bytes")
    p.format(KEPT, "format")
    for k, block in ((0, BLOCK_0), (REQUESTS, BLOCK_65), (INDEX, BLOCK_66), (INDEX + 1, BLOCK_67)):
        p.lay(KEPT, k, block)
    p.restore(KEPT, "restore")
    p.answered(0, "Failed")
    p.counts(KEPT, "kept")
    for i in range(3):
        p.request_at(KEPT, "kept", i)
    p.holds(KEPT, (16, 1), (0x01020304,), *[0] * 116, (17, 3))
    p.indexed(KEPT, "10.0.0.0/8", *[None] * 117, "192.168.4.0/22")
    for elapsed, phase in ((3_000, "Failed"), (3_001, "Idle")):
        p.copy(COPY, KEPT)
        p.time(COPY, f"time passed {elapsed}", elapsed)
        p.answered(0, phase)
    p.open(KEPT, "open")
    p.wrote("0200 0026 00000001 0500 000e 0001 001e 00 00 1000 0a000002 0000 8503 0004 8000 001e 0504 0004 00000009")
    p.init(KEPT, "init", init(own(), session_tlv(1, 5), ack_tlv(5)))
    p.answered(0, "UpFT")
    p.submit(KEPT, "submit Request", request_message(1))
    p.answered(14)
    p.submit(KEPT, "submit", AN_ADDRESS)
    assert p.last.slot == 63
    for answer, kind, fec in BY_BYTES:
        p.copy(COPY, KEPT)
        p.receive(COPY, f"receive {fec}", message(TYPE[kind], 9, tlv(FEC, bytes.fromhex(fec))))
        p.answered(answer)
    p.receive(KEPT, "receive Mapping 17", label_message(MAPPING, 17))
    p.answered(33, "Idle")


PARTS = (
    *(before, example, recovery, restart, net_zero, timeouts, lengths, full_labels, full_store, still_held),
    *(messages, refused_images, refused_index, beginnings, plain_session, block_0),
)


def main():
    p = Pair()
    for part in (*PARTS, *requests.PARTS, *left_out.PARTS, *withdrawals.PARTS, *forms.PARTS, *prefixes.PARTS):
        part(p)
    size = sum(len(line) + 1 for line in SCRIPT)
    assert size <= ROOM, size
    settle({f"session_cases/{name}": "".join(line + "\n" for line in lines).encode() for name, lines in (("stdin", SCRIPT), ("stdout", LINES))})


main()
