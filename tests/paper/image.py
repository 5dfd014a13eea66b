"""The stored image, from the build paper's words "Stored image" and tickets 2, 5 and 6 of 02: a bytearray of 68 blocks, of version 2; version 1 for the converter alone."""

from .labels import COUNT, OPEN, PLACES, Labels, entry_right, lists_label
from .message import submission
from .numbers import steps
from .wire import field, number

BLOCK, SLOTS = 512, 64
REQUESTS = SLOTS + 1  # block 65: the IDs of the open Requests
INDEX = REQUESTS + 1  # blocks 66 and 67: the entries, "60 places in each of two further blocks"
IN_BLOCK = 60
FURTHER = (REQUESTS, INDEX, INDEX + 1)  # "stored before block 0 and checked last", in this order
SIZE = BLOCK * (FURTHER[-1] + 1)
EARLIER_SIZES = (BLOCK * REQUESTS, BLOCK * INDEX)  # before ticket 2, and before ticket 6
# "milliseconds in bytes 28 to 31 (20 and 21 zero) and 119 labels from 32"; version 1 has seconds in bytes 20 and 21, and 120 label words from 28
NUMBERS = (("version", 4), ("released", 4), ("issued", 4), ("secured", 4), ("first", 2), ("held", 2))
PEERS = (("kept", 1), ("marks", 1), ("keepalive", 2), ("maxpdu", 2))
FIELDS = {1: (*NUMBERS, ("timeout", 2), *PEERS), 2: (*NUMBERS, ("zero", 2), *PEERS, ("timeout", 4))}
WORDS = {1: 120, 2: COUNT}
# "in byte 23 of block 0, 2 if told so, 4 from accepting kind 9 until kind 6"
STOPPED, STOPPING = 2, 4


def check(block):
    a, b = 1, 0
    for i in range(0, 508, 2):
        a = (a + number(block[i : i + 2])) % 65535
        b = (b + a) % 65535
    return field(a, 2) + field(b, 2)


def sealed(body):
    body = body.ljust(508, b"\0")
    return body + check(body)


def is_sealed(block):
    return check(block) == block[508:]


def words_of(data, count):
    return [number(data[4 * i :][:4]) for i in range(count)]


def words_bytes(words):
    return b"".join(field(w, 4) for w in words)


def requests_block(ids=()):
    """ "a further lent list of 120 numbers, stored in block 65 (then zeros)" """
    return sealed(words_bytes(ids))


def index_blocks(entries=()):
    """Blocks 66 and 67: 60 entries in each, and "zeros .. after the places"."""
    return sealed(b"".join(entries[:IN_BLOCK])) + sealed(b"".join(entries[IN_BLOCK:]))


def further_blocks(labels):
    return requests_block(labels.ids) + index_blocks(labels.entries)


class State:
    """What block 0 says, by the layout of a version, and the IDs and entries of the further blocks. A new one is that of "released": kept 0, and nothing else. The
    timeout is in milliseconds, in version 1 in seconds."""

    def __init__(self, words=(), ids=(), layout=2, entries=(), **fields):
        self.layout = layout
        for name, _ in FIELDS[layout]:
            setattr(self, name, fields.get(name, layout if name == "version" else 0))
        self.labels = Labels(words, ids, WORDS[layout], entries)

    def block(self):
        body = b"".join(field(getattr(self, name), width) for name, width in FIELDS[self.layout])
        return sealed(body + words_bytes(self.labels.words))

    def valid(self):
        if self.version != self.layout or self.marks & ~(STOPPED | STOPPING) or self.kept > 1 or self.first >= SLOTS or self.held > SLOTS:
            return False
        if self.layout == 2 and self.zero:
            return False
        if not self.kept:
            return self.block() == State(layout=self.layout).block()
        way = steps(self.released, self.issued)
        return way is not None and way <= self.held and self.labels.valid()

    def pended(self):
        return self.held - steps(self.released, self.issued)

    def live(self):
        """The blocks of the live slots, the oldest first."""
        return [(self.first + i) % SLOTS + 1 for i in range(self.held)]


def block_of(image, k):
    return bytes(image[BLOCK * k : BLOCK * (k + 1)])


def state_of(image, layout=2):
    block, fields, at = block_of(image, 0), {}, 0
    for name, width in FIELDS[layout]:
        fields[name] = number(block[at : at + width])
        at += width
    ids = words_of(block_of(image, REQUESTS), PLACES)
    return State(words_of(block[at:], WORDS[layout]), ids, layout, entries_of(image), **fields)


def entries_of(image):
    return [block_of(image, INDEX + i // IN_BLOCK)[8 * (i % IN_BLOCK) :][:8] for i in range(PLACES)]


def slot_block(m, kind, label):
    return sealed(field(len(m), 2) + field(kind, 1) + b"\0" + field(label, 4) + m)


def slot_valid(block):
    size = number(block[:2])
    if not 8 <= size <= 480:
        return False
    m = block[8 : 8 + size]
    answer, kind, label = submission(m)
    return answer is None and block == slot_block(m, kind, label)


def held_message(image, st, i):
    block = block_of(image, st.live()[i])
    return block[8 : 8 + number(block[:2])]


def further_valid(image, st, k):
    """Behind the places there are zeros. An ID "counts only under code 7, where it stands once"; an entry "is looked at only where the word lists a label"."""
    labels, end = st.labels, block_of(image, k)[480:508]
    if k == REQUESTS:
        ids = [ident for w, ident in zip(labels.words, labels.ids) if w == OPEN]
        return end == bytes(28) and len(set(ids)) == len(ids)
    at = IN_BLOCK * (k - INDEX)
    beside = zip(labels.words[at : at + IN_BLOCK], labels.entries[at:])
    return end == bytes(28) and all(entry_right(entry) for w, entry in beside if lists_label(w))


def refusal(image, layout=2):
    """Restore's checks of a version: size, block 0, its fields, then live slots in ring order: check, then fields; then blocks 65, 66 and 67, "checked last"."""
    if len(image) != SIZE:
        return 12, 0
    if not is_sealed(block_of(image, 0)):
        return 10, 0
    st = state_of(image, layout)
    if not st.valid():
        return 11, 0
    for k in (*st.live(), *FURTHER):
        if not is_sealed(block_of(image, k)):
            return 10, k
        if not (further_valid(image, st, k) if k in FURTHER else slot_valid(block_of(image, k))):
            return 11, k
    return None


def report(image):
    """What is said of an image: its counts, or why it is refused."""
    bad = refusal(image)
    if bad:
        return [f"refused {bad[0]} block {bad[1]}"]
    st = state_of(image)
    return counts(st.released, st.issued, st.secured, st.held, st.pended(), len(st.labels.listed()))


def counts(*numbers):
    return [f"{name} {n}" for name, n in zip(("released", "issued", "secured", "held", "pended", "labels"), numbers)]
