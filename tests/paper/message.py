"""A message read and judged, from the build paper's words "Wire forms" and "Submit", and tickets 2, 5 and 6 of 02."""

from .labels import EVERY, entry_of
from .numbers import LAST, milliseconds
from .wire import ABORT, ACK, FEC, LABEL, MAPPING, NOTIFICATION, PARAMETERS, PROTECTION, RELEASE, REQUEST, REQUEST_ID, SESSION, STATUS
from .wire import STATUS_CODE, TYPE, WITHDRAW, number

# the lengths that a value may have, None where it may have any; "both TLV forms are read" of FT Session
LENGTHS = {FEC: None, LABEL: (4,), STATUS: (10,), PARAMETERS: (14,), SESSION: (4, 12), PROTECTION: (4,), ACK: (4,), REQUEST_ID: (4,)}
KINDS = {number_of_type: kind for kind, number_of_type in TYPE.items() if kind not in STATUS_CODE}
KIND_OF_STATUS = {code: kind for kind, code in STATUS_CODE.items()}
# "Mapping without FEC or label; Withdraw or Release without FEC", 02: "Request and Abort without FEC, Abort without 0x0600"
BORNE = {MAPPING: (FEC, LABEL), WITHDRAW: (FEC,), RELEASE: (FEC,), REQUEST: (FEC,), ABORT: (FEC, REQUEST_ID)}
NO_LABEL = LAST


class Message:
    """A message read: its type, and the value of each listed TLV. `bad` where it is malformed."""

    def __init__(self, m):
        self.tlvs, self.bad = {}, True
        if len(m) < 8 or number(m[2:4]) != len(m) - 4:
            return
        self.type, self.ident = number(m[:2]) & 0x7FFF, number(m[4:8])
        at = 8
        while at < len(m):
            if at + 4 > len(m):
                return
            kind, size = number(m[at : at + 2]) & 0x3FFF, number(m[at + 2 : at + 4])
            value = m[at + 4 : at + 4 + size]
            if len(value) != size:
                return
            if kind in LENGTHS:
                if kind in self.tlvs or (LENGTHS[kind] is not None and size not in LENGTHS[kind]):
                    return
                self.tlvs[kind] = bytes(value)
            at += 4 + size
        self.bad = not self.bears()

    def bears(self):
        if self.has(LABEL) and self.label() > 1048575:
            return False
        return all(self.has(kind) for kind in BORNE.get(KINDS.get(self.type), ()))

    def has(self, kind):
        return kind in self.tlvs

    def value(self, kind):
        return number(self.tlvs[kind])

    def label(self):
        return self.value(LABEL) if self.has(LABEL) else None

    def fatal(self):
        return self.has(STATUS) and self.tlvs[STATUS][0] >= 0x80

    def bears_ft(self):
        return any(self.has(kind) for kind in (SESSION, PROTECTION, ACK))

    def published(self):
        """FT Session stands in RFC 3479's form, known by its length."""
        return len(self.tlvs.get(SESSION, b"")) == 12

    def reconnects(self):
        """R of FT Session, "heeding R alone"."""
        return self.has(SESSION) and self.tlvs[SESSION][0] >= 0x80

    def timeout(self):
        """The reconnection timeout of FT Session, in the unit of its form."""
        value = self.tlvs[SESSION]
        return number(value[4:8] if self.published() else value[2:])

    def milliseconds(self):
        return milliseconds(self.timeout(), self.published())

    def kind(self):
        """Resources Available, No Resources: a Notification whose Status has that code in its low 30 bits and E clear."""
        if self.type == NOTIFICATION and self.has(STATUS) and not self.fatal():
            return KIND_OF_STATUS.get(number(self.tlvs[STATUS][:4]) & 0x3FFFFFFF)
        return KINDS.get(self.type)

    def answered(self):
        """The ID of the Request that a message answers: "a Notification (Status) or Mapping (TLV 0x0600, length 4) naming its ID", E clear."""
        if self.type == NOTIFICATION and self.has(STATUS) and not self.fatal():
            return number(self.tlvs[STATUS][4:8])
        return self.value(REQUEST_ID) if self.type == TYPE[MAPPING] and self.has(REQUEST_ID) else None

    def entry(self):
        """What the index has for the FEC."""
        return entry_of(self.tlvs[FEC])

    def touched(self):
        """The label that a message names; without one EVERY for the wildcard FEC (one element of type 1), else the entry of its FEC."""
        if self.has(LABEL):
            return self.label()
        return EVERY if self.tlvs[FEC] == b"\x01" else self.entry()


def submission(m):
    """4, 5, or None with the kind and the label of a message that may be sent."""
    read = Message(m)
    if read.bad:
        return 4, None, None
    kind = read.kind()
    if kind is None or read.bears_ft() or (kind <= RELEASE and read.label() is None):
        return 5, None, None
    return None, kind, read.label() if kind <= RELEASE else NO_LABEL
