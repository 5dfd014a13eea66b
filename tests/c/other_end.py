"""The other end of a connection with the example cabinet, by its bytes."""
import itertools
import socket
import struct

OURS, CABINETS = bytes([10, 255, 0, 2]), bytes([10, 255, 0, 1])
NOTIFICATION, INIT, KEEPALIVE, ADDRESS, MAPPING, REQUEST, WITHDRAW, RELEASE, ABORT = 0x0001, 0x0200, 0x0201, 0x0300, 0x0400, 0x0401, 0x0402, 0x0403, 0x0404
FEC, ADDRESSES, LABEL, STATUS, PARAMETERS, FT_SESSION, FT_PROTECTION, FT_ACK = 0x0100, 0x0101, 0x0200, 0x0300, 0x0500, 0x0503, 0x0203, 0x0504
REQUEST_ID = 0x0600
PREFIX = bytes([2, 0, 1, 24, 10, 9, 8])


def tlv(kind, value):
    return struct.pack(">HH", kind, len(value)) + value


def number(kind, value):
    return tlv(kind, struct.pack(">I", value))


def message(kind, *tlvs, ident=77):
    body = b"".join(tlvs)
    return struct.pack(">HHI", kind, len(body) + 4, ident) + body


def of_label(kind, label, *more):
    return message(kind, tlv(FEC, PREFIX), number(LABEL, label), *more)


def init(*more, receiver=CABINETS + bytes(2), version=1, keepalive_time=60):
    return message(INIT, tlv(PARAMETERS, struct.pack(">HHBBH", version, keepalive_time, 0, 0, 0) + receiver), *more)


def draft_session(reconnect, seconds):
    return struct.pack(">HH", reconnect << 15, seconds)


def published_session(reconnect, seconds):
    """Of the new flags S alone; recovery time 0."""
    return struct.pack(">HHII", reconnect << 15 | 8, 0, 1000 * seconds, 0)


FORMS = {"draft": draft_session, "published": published_session}
by_turns = itertools.cycle(FORMS.values())


def ft_session(reconnect, seconds=30):
    return tlv(FT_SESSION, next(by_turns)(reconnect, seconds))


def pdu(*messages, version=1, sender=OURS + bytes(2)):
    body = b"".join(messages)
    return struct.pack(">HH", version, len(body) + 6) + sender + body


class Connection:
    """Every wait ends within two minutes; what is waited for comes at once unless there is a fault."""

    def __init__(self, port, source="127.0.0.1", address="127.0.0.1", cabinet=CABINETS):
        self.socket = socket.create_connection((address, port), timeout=100, source_address=(source, 0))
        self.cabinet = cabinet
        self.messages = []

    def send(self, *messages, **header):
        self.socket.sendall(pdu(*messages, **header))

    def read(self, length):
        got = b""
        while len(got) < length:
            part = self.socket.recv(length - len(got))
            if not part:
                return None
            got += part
        return got

    def next(self):
        """The next message's type, TLVs and ID; None where the cabinet has closed."""
        while not self.messages:
            head = self.read(4)
            if head is None:
                return None
            body = self.read(struct.unpack(">HH", head)[1])
            assert body[:6] == self.cabinet + bytes(2), body[:6]
            self.messages = list(split(body[6:]))
        return self.messages.pop(0)

    def expect(self, kind, **values):
        found = self.next()
        assert found is not None, f"closed, and {kind:#06x} is wanted"
        assert found[0] == kind, f"{found[0]:#06x}, and {kind:#06x} is wanted"
        for name, wanted in values.items():
            borne = found[1].get(globals()[name])
            assert borne == wanted, f"{name} of {kind:#06x}: {borne}, and {wanted} is wanted"
        return found[2]

    def expect_ack(self, acknowledged):
        """KeepAlives alone come, until one of them acknowledges this number."""
        found = self.next()
        while found is not None and found[0] == KEEPALIVE and found[1].get(FT_ACK) != word(acknowledged):
            found = self.next()
        assert found is not None and found[0] == KEEPALIVE, f"{found}, and a KeepAlive with the ACK of {acknowledged} is wanted"

    def pass_keepalives(self):
        """So many KeepAlives as come before the next message are read."""
        while (found := self.next()) is not None:
            if found[0] != KEEPALIVE:
                self.messages.insert(0, found)
                return

    def expect_closed(self):
        while (found := self.next()) is not None:
            assert found[0] == KEEPALIVE, f"{found[0]:#06x}, and the end is wanted"


def up(port, source="127.0.0.1", seconds=30):
    """A connection on which the session has come up afresh."""
    c = Connection(port, source)
    c.send(init(ft_session(0, seconds)))
    c.expect(INIT, FT_ACK=None)
    c.expect(KEEPALIVE, FT_ACK=word(0))
    c.expect(ADDRESS, FT_PROTECTION=word(1))
    return c


def split(body):
    while body:
        kind, length = struct.unpack(">HH", body[:4])
        yield kind & 0x7FFF, dict(read_tlvs(body[8 : 4 + length])), body[4:8]
        body = body[4 + length :]


def read_tlvs(rest):
    while rest:
        kind, length = struct.unpack(">HH", rest[:4])
        yield kind & 0x3FFF, rest[4 : 4 + length]
        rest = rest[4 + length :]


def word(number_of_32_bits):
    return struct.pack(">I", number_of_32_bits)


def value(four_bytes):
    return struct.unpack(">I", four_bytes)[0]
