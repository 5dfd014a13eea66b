#!/usr/bin/env python3
"""strangers.py CABINET: connects to example cabinets as nobody should, on loopback addresses alone, and looks that no session minds.

Beside a pair that is up: connections from another address and from the peer's, with no byte, with garbage, with Inits that are not the peer's or not for us, and
with the one Init that would make the cabinet give up all it keeps. Each is closed by the cabinet; the pair stays on its first connection, and both stores keep their labels.
Then the peer itself, whose connection is gone without the cabinet knowing, comes back. Then discovery: no connection is taken without an adjacency.
"""
import os
import random
import socket
import struct
import sys
import tempfile
import time
from pathlib import Path

sys.dont_write_bytecode = True
from cabinets import Cabinet
from other_end import *

PEER, STRANGER = "127.0.0.2", "127.0.0.3"
FATAL = message(NOTIFICATION, tlv(STATUS, struct.pack(">IIH", 0x8000000A, 0, 0)))


def not_inits():
    """What is no Init of the peer's to us, whoever sends it: the name of each, and its bytes."""
    yield "nothing", b""
    yield "half an Init", pdu(init(ft_session(0)))[:20]
    yield "another LSR's", pdu(init(ft_session(0)), sender=bytes([10, 255, 0, 3, 0, 0]))
    yield "another label space's", pdu(init(ft_session(0)), sender=OURS + bytes([0, 1]))
    yield "to another LSR", pdu(init(ft_session(0), receiver=bytes([10, 255, 0, 3, 0, 0])))
    yield "to another label space", pdu(init(ft_session(0), receiver=CABINETS + bytes([0, 1])))
    yield "of another protocol version", pdu(init(ft_session(0), version=2))
    yield "without a KeepAlive time", pdu(init(ft_session(0), keepalive_time=0))
    yield "without parameters", pdu(message(INIT, ft_session(0)))
    yield "malformed", pdu(init(tlv(FT_SESSION, bytes(5))))
    yield "a KeepAlive", pdu(message(KEEPALIVE), init())
    yield "a fatal Notification", pdu(FATAL)
    yield "a Mapping", pdu(of_label(MAPPING, 500))
    yield "no message", pdu()
    yield "another version", pdu(init(), version=2)
    yield "too long", struct.pack(">HH", 1, 65535) + bytes(4096)
    source = random.Random(3036)
    for i in range(12):
        yield f"garbage {i}", source.randbytes(source.randrange(1, 300))
        yield f"garbage behind a header {i}", struct.pack(">HH", 1, 106) + OURS + bytes(2) + source.randbytes(100)


def closed_by_cabinet(s):
    """Reads to the end; the cabinet says nothing before it."""
    try:
        assert s.recv(1) == b"", "the cabinet speaks to a stranger"
    except ConnectionResetError:
        pass


def visit(port, source, data, address="127.0.0.1"):
    """Connects, sends all of it and no more, and waits until the cabinet has closed."""
    with socket.create_connection((address, port), timeout=100, source_address=(source, 0)) as s:
        try:
            s.sendall(data)
            s.shutdown(socket.SHUT_WR)
        except OSError:  # the cabinet was quicker
            pass
        closed_by_cabinet(s)


def visits(port):
    """How many came."""
    from_peer = [data for _, data in not_inits()]
    plain, resuming = pdu(init()), pdu(init(ft_session(1), number(FT_ACK, 0)))
    for data in from_peer:
        visit(port, PEER, data)
        visit(port, STRANGER, data)
    for data in (plain, resuming, plain + pdu(FATAL)):
        visit(port, STRANGER, data)
    silent = [socket.create_connection(("127.0.0.1", port), timeout=100, source_address=(PEER, 0)) for _ in range(8)]
    for s in silent[:-1]:  # each gives way to the next, and the last waits beside the session
        closed_by_cabinet(s)
        s.close()
    return 2 * len(from_peer) + 3 + len(silent) - 1, silent[-1]


def beside_a_pair(program, folder):
    with Cabinet(program, folder / "a", "10.255.0.1", "10.255.0.2", "listen", "127.0.0.1", PEER, 0, 60, 30) as a:
        port = a.port()
        with Cabinet(program, folder / "b", "10.255.0.2", "10.255.0.1", "connect", PEER, "127.0.0.1", port, 60, 30) as b:
            a.tell("give 100 10.1.0.0/24")
            b.tell("give 200 10.2.0.0/24")
            a.wait_stored("label 100 of 10.1.0.0/24 given", "label 200 of 10.2.0.0/24 using")
            b.wait_stored("label 100 of 10.1.0.0/24 using", "label 200 of 10.2.0.0/24 given")
            count, silent = visits(port)
            a.wait("turned away a connection", count)
            a.tell("give 101 10.1.1.0/24")
            a.wait_stored("label 100 of 10.1.0.0/24 given", "label 101 of 10.1.1.0/24 given", "label 200 of 10.2.0.0/24 using")
            b.wait_stored("label 100 of 10.1.0.0/24 using", "label 101 of 10.1.1.0/24 using", "label 200 of 10.2.0.0/24 given")
            silent.close()
            said = b.end()
            a.wait("connection closed: the peer closed it")
            for name, log in (("a", a.said()), ("b", said)):
                assert log.count("up UpFT") == 1, f"{name}:\n{log}"
            assert "closed" not in said and a.said().count("connection closed") == 1, f"{a.said()}\n{said}"
    return count


def comes_back(program, folder):
    """A second connection of the peer's waits beside the first, and takes its place with its Init, however its bytes come; with it the state is kept."""
    with Cabinet(program, folder / "c", "10.255.0.1", "10.255.0.2", "listen", "127.0.0.1", PEER, 0, 60, 30) as cabinet:
        first = up(cabinet.port(), PEER)
        second = Connection(cabinet.port(), PEER)
        whole = pdu(init(ft_session(1), number(FT_ACK, 1)))
        second.socket.sendall(whole[:-1])
        cabinet.tell("give 100 10.1.0.0/24")
        first.expect(MAPPING, LABEL=word(100), FT_PROTECTION=word(2))
        second.socket.sendall(whole[-1:] + pdu(message(KEEPALIVE, number(FT_ACK, 1))))
        first.expect_closed()
        second.expect(INIT, FT_ACK=word(0))
        second.expect(KEEPALIVE, FT_ACK=word(0))
        second.expect(MAPPING, LABEL=word(100), FT_PROTECTION=word(2))
        assert "the peer has connected anew" in cabinet.said() and "up UpFT, resumed" in cabinet.said(), cabinet.said()


def waits_no_longer(program, folder):
    """A connection on which no Init comes is closed after the KeepAlive time, here a second."""
    with Cabinet(program, folder / "d", "10.255.0.1", "10.255.0.2", "listen", "127.0.0.1", PEER, 0, 1, 30) as cabinet:
        with socket.create_connection(("127.0.0.1", cabinet.port()), timeout=100, source_address=(PEER, 0)) as s:
            closed_by_cabinet(s)
        cabinet.wait("no Init came for the KeepAlive time")


# ---- discovery ----

TRANSPORT, COMMON_HELLO, HELLO = 0x0401, 0x0400, 0x0100
IP_MULTICAST_ALL = 49


class Link:
    """Loopback addresses of this process's own, so that two runs do not meet at port 646."""

    def __init__(self):
        pid = os.getpid()
        self.cabinets, self.peers, self.strangers = (f"127.{1 + pid // 250 % 250}.{1 + pid % 250}.{last}" for last in (1, 2, 3))
        self.cabinet_lsr, self.peer_lsr = socket.inet_aton(self.cabinets), socket.inet_aton(self.peers)

    def hello(self, transport, to="224.0.0.2"):
        """A Hello of the peer's that names a transport address."""
        with socket.socket(socket.AF_INET, socket.SOCK_DGRAM) as s:
            s.bind((self.peers, 0))
            s.setsockopt(socket.IPPROTO_IP, socket.IP_MULTICAST_IF, socket.inet_aton("127.0.0.1"))
            text = message(HELLO, tlv(COMMON_HELLO, struct.pack(">HH", 15, 0)), tlv(TRANSPORT, socket.inet_aton(transport)))
            s.sendto(pdu(text, sender=self.peer_lsr + bytes(2)), (to, 646))

    def init(self, *more):
        return pdu(init(*more, receiver=self.cabinet_lsr + bytes(2)), sender=self.peer_lsr + bytes(2))

    def turned_away(self, cabinet, source, why):
        """Twice: the second connection is taken after all that was sent before the first."""
        seen = cabinet.said().count(why)
        for _ in range(2):
            visit(646, source, self.init(ft_session(0)), self.cabinets)
        cabinet.wait(why, seen + 2)


def hindrance():
    """Why discovery cannot be tried here: port 646 is a privileged one, and not every kernel has groups on the loopback interface. None where it can."""
    try:
        with socket.socket() as tcp, socket.socket(socket.AF_INET, socket.SOCK_DGRAM) as udp:
            tcp.bind((Link().cabinets, 646))
            udp.setsockopt(socket.SOL_SOCKET, socket.SO_REUSEADDR, 1)
            udp.bind(("224.0.0.2", 646))
            udp.setsockopt(socket.IPPROTO_IP, IP_MULTICAST_ALL, 0)
            udp.setsockopt(socket.IPPROTO_IP, socket.IP_ADD_MEMBERSHIP, socket.inet_aton("224.0.0.2") + socket.inet_aton("127.0.0.1"))
    except OSError as error:
        return error
    return None


def with_discovery(program, folder):
    link = Link()
    with Cabinet(program, folder / "e", link.cabinets, link.peers, "hello", "127.0.0.1", 60, 30) as cabinet:
        cabinet.port()
        link.turned_away(cabinet, link.peers, "there is no adjacency")
        link.hello(link.peers, to=link.cabinets)
        link.hello(link.peers, to="127.0.0.1")
        link.turned_away(cabinet, link.peers, "there is no adjacency")
        link.hello(link.peers)
        cabinet.wait("a Hello of the peer's has come")
        link.turned_away(cabinet, link.strangers, "it is not the peer's address")
        link.hello(link.strangers)
        link.turned_away(cabinet, link.strangers, "it is not the peer's address")
        assert "up " not in cabinet.said() and cabinet.stored()[0].startswith("kept 0,"), cabinet.said()
        c = Connection(646, link.peers, link.cabinets, link.cabinet_lsr)
        c.socket.sendall(link.init(ft_session(0)))
        c.expect(INIT, FT_ACK=None)
        cabinet.wait("up UpFT")
        moves(link, cabinet)


def moves(link, cabinet):
    """Hellos that name another transport address are not the adjacency's, which runs out after its hold time, 15 seconds; then they are the peer's."""
    begun = time.monotonic()
    while cabinet.said().count("a Hello of the peer's has come") < 2:
        assert time.monotonic() < begun + 100, cabinet.said()
        link.hello(link.strangers)
        time.sleep(0.1)
    assert "connection closed: no Hello of the peer's came" in cabinet.said(), cabinet.said()
    c = Connection(646, link.strangers, link.cabinets, link.cabinet_lsr)
    c.socket.sendall(link.init(ft_session(1), number(FT_ACK, 0)))
    c.expect(INIT, FT_ACK=word(0))


def main():
    program = sys.argv[1]
    with tempfile.TemporaryDirectory() as name:
        folder = Path(name)
        count = beside_a_pair(program, folder)
        comes_back(program, folder)
        waits_no_longer(program, folder)
        why_not = hindrance()
        if why_not is None:
            with_discovery(program, folder)
        discovery = "no connection is taken without an adjacency" if why_not is None else f"NOT TRIED: discovery on port 646: {why_not}"
    print(f"strangers.py: {count} connections of strangers turned away beside a pair that stayed up; the peer itself comes back; {discovery}")


main()
