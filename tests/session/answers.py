"""Messages that are given to P1, each on a copy of the same image, with the answer that the build paper gives to it.

P1 has R 1, I 2 and S 1; it has given label 101 (code 1), and uses 201 (3) and, without protection, 1000 (6), all of 10.0.0.1/32."""

from pair import label_message
from paper.wire import ABORT, ADDRESS, FEC, INIT, KEEPALIVE, MAPPING, NOTIFICATION, RELEASE, REQUEST, TYPE, WITHDRAW, ack_tlv
from paper.wire import label_tlv, message, parameters_tlv, protection_tlv, request_id_tlv, session_tlv, status_tlv, tlv

ID = 9
FATAL = 0x8000000A


def keepalive(*tlvs):
    return message(KEEPALIVE, ID, *tlvs)


def bare_address(*tlvs):
    return message(TYPE[ADDRESS], ID, *tlvs)


def without_label(kind, *tlvs):
    return message(TYPE[kind], ID, tlv(FEC, b""), *tlvs)


def with_label(kind, label, *tlvs):
    return without_label(kind, label_tlv(label), *tlvs)


def status(code, *tlvs, about=0):
    return message(NOTIFICATION, ID, status_tlv(code, about), *tlvs)


def init(*tlvs, ident=0):
    return message(INIT, ident, *tlvs)


def own(seconds=15, size=1500):
    return parameters_tlv(seconds, size)


def by_bytes(*rows):
    return tuple((answer, bytes.fromhex(text)) for answer, text in rows)


RECEIVED = (
    (0, keepalive(ack_tlv(1))),
    (0, keepalive(ack_tlv(2))),
    (34, keepalive(ack_tlv(3))),
    (34, keepalive(ack_tlv(0))),
    (0, bare_address(protection_tlv(2), ack_tlv(2))),
    (20, bare_address(protection_tlv(3), ack_tlv(2))),
    (20, bare_address(protection_tlv(1))),
    (30, bare_address(protection_tlv(0))),
    (0, keepalive(protection_tlv(2))),
    (33, bare_address()),
    (33, with_label(MAPPING, 201)),
    (32, with_label(MAPPING, 1000, protection_tlv(2))),
    (0, with_label(WITHDRAW, 201, protection_tlv(2))),
    (0, with_label(RELEASE, 101, protection_tlv(2))),
    (22, keepalive(protection_tlv(2), ack_tlv(2))[:20]),
    (22, with_label(MAPPING, 1048576)),
    (22, without_label(MAPPING)),
    (22, init(ident=ID)),
    (36, status(FATAL)),
)
# Two faults in a message: the answer is the first of "22, 36, 31, 30, 34, 33, 32, 20, 21".
TWO_FAULTS = (
    (22, init(status_tlv(FATAL), ident=ID)),
    (36, status(FATAL, protection_tlv(0))),
    (36, status(FATAL, ack_tlv(3))),
    (30, bare_address(protection_tlv(0), ack_tlv(3))),
    (34, bare_address(ack_tlv(3))),
    (34, bare_address(protection_tlv(3), ack_tlv(3))),
    (34, with_label(MAPPING, 1000, protection_tlv(2), ack_tlv(3))),
    (32, with_label(MAPPING, 1000, protection_tlv(3))),
)
PLAIN = (
    (0, keepalive()),
    (0, with_label(MAPPING, 300)),
    (31, keepalive(ack_tlv(0))),
    (31, bare_address(protection_tlv(1))),
    (22, without_label(MAPPING)),
    (36, status(FATAL)),
    (36, status(FATAL, protection_tlv(1))),
    (22, init(own(), session_tlv(0, 5))),
    # "In UpPlain messages are passed on": nothing is remembered of these.
    (0, status(0x0E)),
    (0, status(0x0F)),
    (0, without_label(REQUEST)),
    (0, without_label(ABORT, request_id_tlv(ID))),
)
SUBMITTED = (
    (4, without_label(MAPPING)),
    (5, with_label(MAPPING, 102, protection_tlv(3))),
    (5, with_label(MAPPING, 15, ack_tlv(3))),
    (5, message(0x0100, ID, tlv(FEC, b""))),
    (5, without_label(WITHDRAW)),
    (0, without_label(REQUEST)),
    (4, message(TYPE[REQUEST], ID)),
    (5, without_label(REQUEST, protection_tlv(3))),
    (6, without_label(ABORT, request_id_tlv(ID))),
    (4, without_label(ABORT)),
    (4, message(TYPE[ABORT], ID, request_id_tlv(ID))),
    # A listed TLV of a wrong length, or twice, is malformed in every message.
    (4, bare_address(tlv(0x0600, bytes(3)))),
    (4, bare_address(request_id_tlv(1), request_id_tlv(1))),
    (0, bare_address(request_id_tlv(1))),
    (0, label_message(MAPPING, 101)),
    # Ticket 6: it would change the label's entry.
    (6, with_label(MAPPING, 101)),
    (6, with_label(MAPPING, 15)),
    (6, with_label(WITHDRAW, 102)),
    (6, with_label(RELEASE, 1000)),
    (0, with_label(RELEASE, 201)),
)
# The order is "22, 23, 35, 34".
INITS = (
    (0, init(own(), session_tlv(1, 5), ack_tlv(2))),
    (34, init(own(), session_tlv(1, 5), ack_tlv(3))),
    (35, init(own(seconds=16), session_tlv(1, 5), ack_tlv(2))),
    (35, init(own(size=1501), session_tlv(1, 5), ack_tlv(2))),
    (35, init(own(seconds=16), session_tlv(1, 5), ack_tlv(3))),
    (0, init(own(), session_tlv(0, 3), ack_tlv(9))),
    (23, init(own(), session_tlv(1, 5))),
    (23, init(own(size=1501), session_tlv(1, 5))),
    (0, init(own())),
    (23, init(session_tlv(0, 5), ident=ID)),
    (22, keepalive()),
)
RECEIVED_BY_BYTES = by_bytes(
    # 'Label Resources Available' is 0x0000000F, with the F bit too; 0x0000000E is 'No label resources', 0x0000000D another status.
    (33, "0001 0012 00000009 0300 000a 0000000f 00000000 0000"),
    (33, "0001 0012 00000009 0300 000a 4000000f 00000000 0000"),
    (36, "0001 0012 00000009 0300 000a 8000000f 00000000 0000"),
    (0, "0001 0012 00000009 0300 000a 0000000e 00000000 0000"),
    (0, "0001 0012 00000009 0300 000a 4000000e 00000000 0000"),
    (36, "0001 0012 00000009 0300 000a 8000000e 00000000 0000"),
    (0, "0001 0012 00000009 0300 000a 0000000d 00000000 0000"),
    (0, "0001 001a 00000009 0300 000a 0000000f 00000000 0000 0203 0004 00000002"),
    (33, "0301 0004 00000009"),
    # The wildcard FEC is one element, 01: with more behind it, it is another FEC, which touches no label.
    (33, "0402 0009 00000009 0100 0001 01"),
    (0, "0402 000a 00000009 0100 0002 0101"),
    (0, "0402 0011 00000009 0100 0001 01 0203 0004 00000002"),
    (0, "0402 0012 00000009 0100 0002 0101 0203 0004 00000002"),
    (33, "0403 0009 00000009 0100 0001 01"),
    (0, "0403 000a 00000009 0100 0002 0101"),
    (0, "0403 0011 00000009 0100 0001 01 0203 0004 00000002"),
    # The greatest label is 1,048,575.
    (0, "0400 0010 00000009 0100 0000 0200 0004 000fffff"),
    (22, "0400 0010 00000009 0100 0000 0200 0004 00100000"),
    # The peer's Request and Abort need no protection; an Abort is to have its TLV 0x0600, with length 4.
    (0, "0401 0008 00000009 0100 0000"),
    (22, "0401 0004 00000009"),
    (0, "0404 0010 00000009 0100 0000 0600 0004 00000007"),
    (22, "0404 0008 00000009 0100 0000"),
    (22, "0404 000c 00000009 0600 0004 00000007"),
    (22, "0404 000f 00000009 0100 0000 0600 0003 000007"),
    (22, "0201 000d 00000009 8600 0005 0000000700"),
)
SUBMITTED_BY_BYTES = by_bytes(
    (0, "0001 0012 00000009 0300 000a 0000000f 00000000 0000"),
    (0, "0001 0012 00000009 0300 000a 0000000e 00000000 0000"),
    (5, "0001 0012 00000009 0300 000a 8000000e 00000000 0000"),
    (5, "0001 0012 00000009 0300 000a 0000000d 00000000 0000"),
    (0, "0401 0008 00000009 0100 0000"),
    (4, "0401 0004 00000009"),
    (6, "0404 0010 00000009 0100 0000 0600 0004 00000007"),
    (0, "0400 0010 00000009 0100 0000 0200 0004 000fffff"),
    (4, "0400 0010 00000009 0100 0000 0200 0004 00100000"),
)
