"""Messages and TLVs in bytes, from the build paper's words "Wire forms" and tickets 2 and 5 of 02: their types, and how they are written."""

# The kinds of stored messages by their number, and the type of each; Resources Available and No Resources are Notifications.
MAPPING, WITHDRAW, RELEASE, ADDRESS, ADDRESS_WITHDRAW, RESOURCES, REQUEST, ABORT, NO_RESOURCES = 1, 2, 3, 4, 5, 6, 7, 8, 9
NOTIFICATION = 0x0001
TYPE = {MAPPING: 0x0400, WITHDRAW: 0x0402, RELEASE: 0x0403, ADDRESS: 0x0300, ADDRESS_WITHDRAW: 0x0301, REQUEST: 0x0401, ABORT: 0x0404}
TYPE |= {RESOURCES: NOTIFICATION, NO_RESOURCES: NOTIFICATION}
# RFC 3036: 'No Label Resources' 0x0E, 'Label Resources Available' 0x0F
STATUS_CODE = {RESOURCES: 0x0F, NO_RESOURCES: 0x0E}
INIT, KEEPALIVE = 0x0200, 0x0201
FEC, LABEL, STATUS, PARAMETERS, SESSION, PROTECTION, ACK, REQUEST_ID = 0x0100, 0x0200, 0x0300, 0x0500, 0x0503, 0x0203, 0x0504, 0x0600


def number(data):
    return int.from_bytes(data, "big")


def field(n, width):
    return n.to_bytes(width, "big")


def tlv(kind, value):
    return field(kind, 2) + field(len(value), 2) + value


def message(kind, ident, *tlvs):
    body = field(ident, 4) + b"".join(tlvs)
    return field(kind, 2) + field(len(body), 2) + body


def label_tlv(label):
    return tlv(LABEL, field(label, 4))


def status_tlv(code, ident=0):
    """The status code, the ID of the message that it is about, and no type of it."""
    return tlv(STATUS, field(code, 4) + field(ident, 4) + bytes(2))


def request_id_tlv(ident):
    return tlv(REQUEST_ID, field(ident, 4))


def parameters_tlv(keepalive, maxpdu, lsr=0, space=0, on_demand=False):
    """Bit A, "downstream on-demand mode", is the top bit of the fifth byte."""
    flags = field(0x80 if on_demand else 0, 1) + bytes(1)
    return tlv(PARAMETERS, field(1, 2) + field(keepalive, 2) + flags + field(maxpdu, 2) + field(lsr, 4) + field(space, 2))


def session_tlv(again, timeout, published=False):
    """FT Session with the U bit and R: the draft's with the timeout in seconds, or RFC 3479's with milliseconds, "setting S alone of its new flags, Recovery Time to 0"."""
    flags = 0x8000 if again else 0
    if published:
        return tlv(0x8000 | SESSION, field(flags | 0x0008, 2) + bytes(2) + field(timeout, 4) + bytes(4))
    return tlv(0x8000 | SESSION, field(flags, 2) + field(timeout, 2))


def protection_tlv(n):
    return tlv(PROTECTION, field(n, 4))


def ack_tlv(n):
    return tlv(ACK, field(n, 4))


def initialization(ident, parameters, timeout, ack=None, published=False):
    """Our Init: "parameters .., FT Session, then FT ACK if R is 1", 34 or 42 bytes; in RFC 3479's form 42 or 50."""
    tlvs = [parameters_tlv(*parameters), session_tlv(ack is not None, timeout, published)]
    return message(INIT, ident, *tlvs, *([] if ack is None else [ack_tlv(ack)]))
