#!/usr/bin/env python3
"""peer.py CABINET: plays a peer of another maker to the example cabinet, on 127.0.0.1, first without fault tolerance and then with it, and breaks the protocol.

What the cabinet must do of each class of answer is looked at from outside: what it sends, whether it closes the connection, and what its store holds then. The cabinet is played to
in the draft's form of FT Session and in the published one; the peer writes the one and the other by turns. On the way the cabinet's store is made that of an earlier release,
65 blocks of version 1 or 66 of version 2, and the cabinet begins again with it. Then the peer takes back and releases labels by their prefix; then both ask for labels, and answer.
"""
import struct
import sys
import tempfile
import time
from pathlib import Path

sys.dont_write_bytecode = True
from cabinets import Cabinet, stored
from other_end import *

LISTENING = ("10.255.0.1", "10.255.0.2", "listen", "127.0.0.1", "127.0.0.1", 0, 60)


def plain_peer(port):
    """No FT Session: the cabinet writes plain messages itself, answers a Withdraw, and takes PDUs however the bytes come."""
    c = Connection(port)
    c.send(init())
    c.expect(INIT, FT_ACK=None)
    c.expect(KEEPALIVE, FT_ACK=None)
    c.expect(ADDRESS, FT_PROTECTION=None)
    c.expect(MAPPING, LABEL=word(40), FT_PROTECTION=None)
    stream = pdu(message(KEEPALIVE), message(ADDRESS, tlv(ADDRESSES, b"\0\1" + OURS))) + pdu(of_label(MAPPING, 3), of_label(MAPPING, 1000)) + pdu(of_label(WITHDRAW, 1000))
    for i in range(len(stream)):
        c.socket.sendall(stream[i : i + 1])
    c.expect(RELEASE, LABEL=word(1000), FEC=PREFIX, FT_PROTECTION=None)
    c.send(message(NOTIFICATION, tlv(STATUS, struct.pack(">IIH", 0x8000000A, 0, 0))))
    c.expect_closed()


def ft_peer(port, form):
    """A number out of turn (20) leaves the state, and the cabinet sends all again; so does a PDU of another version (4)."""
    c = Connection(port)
    c.send(init(ft_session(0)))
    c.expect(INIT, FT_ACK=None)
    c.expect(KEEPALIVE, FT_ACK=word(0))
    c.send(message(KEEPALIVE, number(FT_ACK, 0)))
    c.expect(ADDRESS, FT_PROTECTION=word(1))
    c.expect(MAPPING, LABEL=word(40), FT_PROTECTION=word(2))
    c.send(of_label(MAPPING, 500, number(FT_PROTECTION, 1)))
    c.expect(KEEPALIVE, FT_ACK=word(1))
    c.send(of_label(MAPPING, 501, number(FT_PROTECTION, 3)))
    c.expect_closed()
    resume(port, form, 0, 1).send(message(KEEPALIVE), version=2)


def resume(port, form, first, last):
    """Both ends resume, the cabinet in its own form; it sends again from `first` on what was not acknowledged."""
    c = Connection(port)
    c.send(init(ft_session(1), number(FT_ACK, first)))
    c.expect(INIT, FT_SESSION=FORMS[form](1, 30), FT_ACK=word(last))
    c.expect(KEEPALIVE, FT_ACK=word(last))
    c.send(message(KEEPALIVE, number(FT_ACK, first)))
    if first < 1:
        c.expect(ADDRESS, FT_PROTECTION=word(1))
    if first < 2:
        c.expect(MAPPING, LABEL=word(40), FT_PROTECTION=word(2))
    return c


def leave_out(port, form, process):
    """On a resumed connection: our numbers jump; the cabinet's Request is lost, aborted during the break, and left out when all is sent again."""
    c = resume(port, form, 2, 1)
    c.send(of_label(MAPPING, 502, number(FT_PROTECTION, 5)))
    c.expect(KEEPALIVE, FT_ACK=word(5))
    process.tell("ask 10.7.0.0/16")
    asked = c.expect(REQUEST, FEC=bytes([2, 0, 1, 16, 10, 7]), FT_PROTECTION=word(3))
    c.socket.close()
    process.tell(f"abort {value(asked)}")
    c = resume(port, form, 2, 5)
    c.expect(ABORT, FEC=bytes([2, 0, 1, 16, 10, 7]), REQUEST_ID=asked, FT_PROTECTION=word(4))
    c.send(message(KEEPALIVE, number(FT_ACK, 4)))
    return c


def timed_out(cabinet, store, port):
    """One second is agreed, and the connection goes: the state is released when it is over."""
    c = up(port, seconds=1)
    assert stored(cabinet, store)[0].startswith("kept 1,"), stored(cabinet, store)
    assert stored(cabinet, store)[0].endswith(" timeout 1000 ms"), stored(cabinet, store)
    begun = time.monotonic()
    c.socket.close()
    while stored(cabinet, store)[0].startswith("kept 1,"):
        assert time.monotonic() < begun + 100, "the state is kept after the timeout"
        time.sleep(0.05)
    assert time.monotonic() > begun + 0.9, "the state is released before the timeout"


def check(block):
    """A and B of 01, over the 254 words of a block."""
    a, b = 1, 0
    for word_of_block in struct.unpack(">254H", block[:508]):
        a = (a + word_of_block) % 65535
        b = (b + a) % 65535
    return struct.pack(">HH", a, b)


def first_release(image):
    """What the first release would have stored of the same state: seconds in bytes 20 and 21, 120 words from 28, and no block behind the slots."""
    milliseconds = struct.unpack(">I", image[28:32])[0]
    assert image[:4] == word(2) and milliseconds % 1000 == 0
    block = word(1) + image[4:20] + struct.pack(">H", milliseconds // 1000) + image[22:28] + image[32:508] + bytes(4)
    return block + check(block) + image[512:33280]


def before_prefixes(image):
    """What a release that knows no prefixes would have stored of it."""
    return image[:33792]


EARLIER = {"draft": first_release, "published": before_prefixes}


def break_the_protocol(cabinet, store, process, port, form):
    """Up to a state with labels both ways, the last message of the peer's with number 6, and all of the cabinet's acknowledged."""
    process.tell("give 40 10.9.8.0/24")
    plain_peer(port)
    ft_peer(port, form)
    c = leave_out(port, form, process)
    c.send(of_label(MAPPING, 501, number(FT_PROTECTION, 6)))
    c.expect(KEEPALIVE, FT_ACK=word(6))
    assert stored(cabinet, store)[1:] == listed(" of 10.9.8.0/24"), stored(cabinet, store)


def listed(of):
    """The labels, in the order of their words."""
    return [f"label 40{of} given", f"label 500{of} using", f"label 502{of} using", f"label 501{of} using"]


def play(cabinet, store, form):
    words = (*LISTENING, 30 if form == "draft" else 30000, form)
    with Cabinet(cabinet, store, *words) as process:
        break_the_protocol(cabinet, store, process, process.port(), form)
        said = process.end()
    earlier = EARLIER[form](Path(store).read_bytes())
    Path(store).write_bytes(earlier)
    with Cabinet(cabinet, store, *words) as process:
        port = process.port()
        converted = f"converted {store} from version 1 to version 2\n" if earlier[:4] == word(1) else ""
        assert process.said().startswith(f"{converted}begin Failed\n"), process.said()
        assert stored(cabinet, store)[1:] == listed(""), stored(cabinet, store)
        c = resume(port, form, 4, 6)
        c.send(of_label(MAPPING, 503, number(FT_PROTECTION, 0)))
        c.expect_closed()
        assert stored(cabinet, store)[0].startswith("kept 0,"), stored(cabinet, store)
        process.tell("give 40 10.9.8.0/24")
        timed_out(cabinet, store, port)
        said += process.end()
    for wanted in ("answer 36", "answer 20", "no PDU", "the peer left out 3 before number 5", "left out 1 of ours", "answer 30", "the agreed timeout is over"):
        assert wanted in said, f"{wanted} is not in the log:\n{said}"
    for wanted in ("the peer's FT Session has the draft's form", "the peer's FT Session has the published form", "up UpFT, resumed"):
        assert wanted in said, f"{wanted} is not in the log:\n{said}"


OTHER_PREFIX = bytes([2, 0, 1, 20, 10, 9, 31])  # 10.9.16.0/20, and bits past its length


def by_prefix(cabinet, store):
    """The peer names no label: it takes back the two of a prefix, which are released, and releases two of ours, which are not given again. Those of other prefixes stay."""
    with Cabinet(cabinet, store, *LISTENING, 30) as process:
        c = up(process.port())
        for turn, (label, fec) in enumerate(((700, PREFIX), (701, PREFIX), (702, OTHER_PREFIX)), 1):
            c.send(message(MAPPING, tlv(FEC, fec), number(LABEL, label), number(FT_PROTECTION, turn)))
        c.send(message(WITHDRAW, tlv(FEC, PREFIX), number(FT_PROTECTION, 4)))
        for turn, label in enumerate((700, 701), 2):
            c.pass_keepalives()
            c.expect(RELEASE, LABEL=word(label), FT_PROTECTION=word(turn))
        for turn, label in enumerate((50, 51), 4):
            process.tell(f"give {label} 10.9.16.0/20")
            c.pass_keepalives()
            c.expect(MAPPING, LABEL=word(label), FEC=bytes([2, 0, 1, 20, 10, 9, 16]), FT_PROTECTION=word(turn))
        c.send(message(RELEASE, tlv(FEC, OTHER_PREFIX), number(FT_PROTECTION, 5), number(FT_ACK, 5)))
        c.expect_ack(5)
        process.tell("give 52 10.9.8.0/24")
        c.pass_keepalives()
        c.expect(MAPPING, LABEL=word(52), FT_PROTECTION=word(6))
        c.send(message(KEEPALIVE, number(FT_ACK, 6)))
        process.wait_stored("label 52 of 10.9.8.0/24 given", "label 702 of 10.9.16.0/20 using")


def withdrawn_by_its_prefix(cabinet, store):
    """Of a label that it gave before it began, the cabinet knows the prefix from its store."""
    with Cabinet(cabinet, store, *LISTENING, 30) as process:
        c = Connection(process.port())
        c.send(init(ft_session(1), number(FT_ACK, 6)))
        c.expect(INIT)
        process.tell("withdraw 52")
        c.pass_keepalives()
        c.expect(WITHDRAW, LABEL=word(52), FEC=PREFIX, FT_PROTECTION=word(7))


def ask(c, ident, turn):
    c.send(message(REQUEST, tlv(FEC, PREFIX), number(FT_PROTECTION, turn), ident=ident))


def asked_by_both(cabinet, store):
    """Requests of the peer's: one answered, one aborted, one of them never made; and one of the cabinet's, which is open when power is cut."""
    with Cabinet(cabinet, store, *LISTENING, 30) as process:
        c = up(process.port())
        ask(c, 900, 1)
        c.expect(KEEPALIVE, FT_ACK=word(1))
        process.tell("give 41 10.9.9.0/24 for 900")
        process.tell("give 41 10.9.8.0/24 for 900")
        c.expect(MAPPING, LABEL=word(41), REQUEST_ID=word(900), FT_PROTECTION=word(2))
        ask(c, 901, 2)
        ask(c, 902, 3)
        c.send(message(ABORT, tlv(FEC, PREFIX), number(REQUEST_ID, 901), number(FT_PROTECTION, 4), ident=903))
        c.send(message(ABORT, tlv(FEC, PREFIX), number(REQUEST_ID, 899), number(FT_PROTECTION, 5), ident=904))
        c.pass_keepalives()
        c.expect(NOTIFICATION, STATUS=struct.pack(">IIH", 0x15, 903, ABORT), REQUEST_ID=word(901), FT_PROTECTION=None)
        process.tell("give 42 10.9.8.0/24 for 901")
        process.tell("labels")
        process.wait("labels end")
        process.tell("ask 10.7.0.0/16")
        c.pass_keepalives()
        asked = value(c.expect(REQUEST, FEC=bytes([2, 0, 1, 16, 10, 7]), FT_PROTECTION=word(3)))
        said = process.said()
        process.wait_stored("label 41 of 10.9.8.0/24 given", f"Request {asked} open", "held Address, number 1", "held Label Mapping of label 41, number 2", f"held Label Request {asked}, number 3")
    for wanted in ("give: no Request 900 of the peer's asks for 10.9.9.0/24", "received Label Request 902: 10.9.8.0/24", "received Label Abort Request for Request 901: 10.9.8.0/24",
                   "give: no Request 901 of the peer's asks for 10.9.8.0/24", "\nRequest 902 of the peer's, 10.9.8.0/24\n"):
        assert wanted in said, f"{wanted} is not in the log:\n{said}"
    return asked


def answered_after_a_power_cut(cabinet, store, asked):
    """The image alone says which IDs are open or held; the Request is answered, and another is made and aborted."""
    Path(store + ".ids").unlink()
    with Cabinet(cabinet, store, *LISTENING, 30) as process:
        c = Connection(process.port())
        c.send(init(ft_session(1), number(FT_ACK, 3)))
        c.send(of_label(MAPPING, 600, number(REQUEST_ID, asked), number(FT_PROTECTION, 6)))
        process.wait_stored("label 41 of 10.9.8.0/24 given", "label 600 of 10.9.8.0/24 using")
        process.tell("ask 10.7.0.0/16")
        c.expect(INIT)
        c.pass_keepalives()
        again = value(c.expect(REQUEST, FT_PROTECTION=word(4)))
        process.tell(f"abort {again}")
        c.expect(ABORT, REQUEST_ID=word(again), FT_PROTECTION=word(5))
        c.send(message(KEEPALIVE, number(FT_ACK, 5)))
        process.wait_stored("label 41 of 10.9.8.0/24 given", "label 600 of 10.9.8.0/24 using")
    return again


def requests(cabinet, store):
    asked = asked_by_both(cabinet, store)
    again = answered_after_a_power_cut(cabinet, store, asked)
    with Cabinet(cabinet, store, *LISTENING, 30) as process:
        c = Connection(process.port())
        c.send(init(ft_session(1), number(FT_ACK, 5)))
        c.expect(INIT)
        process.tell("ask 10.7.0.0/16")
        c.pass_keepalives()
        assert asked < again < value(c.expect(REQUEST, FT_PROTECTION=word(6))), "an ID that was aborted before the power cut is used again"


def main():
    for form in FORMS:
        with tempfile.TemporaryDirectory() as folder:
            play(sys.argv[1], str(Path(folder) / "image"), form)
    with tempfile.TemporaryDirectory() as folder:
        by_prefix(sys.argv[1], str(Path(folder) / "prefixes"))
        withdrawn_by_its_prefix(sys.argv[1], str(Path(folder) / "prefixes"))
        requests(sys.argv[1], str(Path(folder) / "requests"))
    print("peer.py: in both forms: a plain peer served, answers 20, 30, 36, a bad PDU, messages left out on both sides, stores of earlier releases taken over and a timeout "
          "from the example cabinet as they must be; labels taken back and released by their prefix; Requests answered, aborted and open over a power cut")


main()
