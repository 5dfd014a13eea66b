"""Cabinets at five places, 0 to 4; the image at place 0 is a byte too short. Every method is a line of the script that session_cases plays, and is played here too: SCRIPT has the
lines of the script, LINES what is printed. A message is bytes, or the place whose last output it is."""

from paper import calls as c
from paper import image as im
from paper.labels import OPEN, lists_label
from paper.message import Message
from paper.wire import ACK, PROTECTION, TYPE

SCRIPT, LINES = [], []

# KeepAlive time, PDU length, LSR ID and label space of P2, at place 2, and of P1, at the others.
P1_OWN, P2_OWN = (30, 4096, 0x0A000002, 0), (15, 1500, 0x0A000001, 0)


def show(name, o, image):
    block = f" block {o.block}" if o.answer in (10, 11) else ""
    slot = f" {im.block_of(image, o.slot)[508:].hex()}" if o.slot else ""
    further = "".join(f" {im.block_of(image, k)[508:].hex()}" for k in further_blocks(o))
    block0 = f"true {bytes(image[508:512]).hex()}" if o.block0 else "false"
    left_out = f", left out {o.left_out}" if o.left_out else ""
    phase = " ".join(map(str, o.phase))
    LINES.append(f"{name}: {o.answer}{block}, {phase}, written {len(o.out)}, slot {o.slot}{slot}, further {o.further}{further}, block0 {block0}{left_out}")
    if o.out:
        LINES.append(f"  {o.out.hex()}")


def further_blocks(o):
    """The further blocks that an outcome names, in their order."""
    return [k for bit, k in enumerate(im.FURTHER) if o.further >> bit & 1]


def step(name, word, *numbers, message=""):
    SCRIPT.append(f"{name}: {word} {' '.join(map(str, numbers))}" + (f": {message}" if message else ""))


def dotted(entry):
    """The prefix of an entry as people write it; None for zeros."""
    return f"{'.'.join(map(str, entry[4:]))}/{entry[1]}" if entry[0] else None


class Player:
    def __init__(self):
        self.image = [bytearray(im.SIZE - (place == 0)) for place in range(5)]
        self.phase, self.out, self.last = [("Idle",)] * 5, [b""] * 5, None

    def title(self, text):
        SCRIPT.append(f"# {text}: title")
        LINES.append(f"# {text}")

    # The ten calls.
    def outcome(self, place, name, o):
        show(name, o, self.image[place])
        self.phase[place], self.out[place], self.last = o.phase, o.out or self.out[place], o
        return o

    def format(self, place, name):
        step(name, "format", place)
        self.outcome(place, name, c.format_image(self.image[place]))

    def restore(self, place, name):
        step(name, "restore", place)
        self.outcome(place, name, c.restore(self.image[place]))

    def open(self, place, name, proposal=None, on_demand=False):
        """In the script a proposal that is not given stands as -, or as nothing at the line's end; behind it 1 stands for labels on demand, 2 for the published form, 3 for both."""
        published = isinstance(proposal, c.Published)
        given, manner = proposal.millis if published else proposal, on_demand + 2 * published
        numbers = ("-" if given is None else given, manner) if manner else () if given is None else (given,)
        step(name, "open", place, 64, *numbers)
        own = (*(P2_OWN if place == 2 else P1_OWN), on_demand)
        self.outcome(place, name, c.open_session(self.image[place], self.phase[place], 1, own, proposal, 64))

    def send(self, place, name, room=512, ack=False):
        step(name, "send", place, room, *([1] if ack else []))
        self.outcome(place, name, c.send_next(self.image[place], self.phase[place], ack, room))

    def keepalive(self, place, name, room=16):
        step(name, "keepalive", place, room, 2)
        self.outcome(place, name, c.keepalive(self.image[place], self.phase[place], 2, room))

    def given(self, place, name, word, call, m):
        if isinstance(m, int):
            step(name, word, place, message=f"from {m}")
            m = self.out[m]
        else:
            step(name, word, place, message=m.hex())
        return self.outcome(place, name, call(self.image[place], self.phase[place], m))

    def init(self, place, name, m):
        self.given(place, name, "init", c.init_received, m)

    def submit(self, place, name, m):
        return self.given(place, name, "submit", c.submit, m)

    def receive(self, place, name, m):
        self.given(place, name, "receive", c.receive, m)

    def failed(self, place, name):
        step(name, "failed", place)
        self.outcome(place, name, c.connection_failed(self.image[place], self.phase[place]))

    def time(self, place, name, elapsed):
        """So many milliseconds have passed."""
        step(name, "time", place, elapsed)
        self.outcome(place, name, c.time_passed(self.image[place], self.phase[place], elapsed))

    # What the build paper says of the last call, in its own numbers and bytes: the lines above are what tests/paper makes of it.
    def answered(self, answer, phase=None):
        assert (self.last.answer, phase or self.last.phase[0]) == (answer, self.last.phase[0]), (SCRIPT[-1], answer, phase)

    def passed_over(self, count):
        """So many messages were left out, by the peer before the one received or by us before the one sent."""
        assert (self.last.answer, self.last.left_out) == (0, count), (SCRIPT[-1], self.last.left_out)

    def wrote(self, text):
        assert self.last.out == bytes.fromhex(text), (SCRIPT[-1], self.last.out.hex())

    def bears(self, kind, number, ack=None):
        read = Message(self.last.out)
        assert (read.type, *(read.value(t) if read.has(t) else None for t in (PROTECTION, ACK))) == (TYPE[kind], number, ack), SCRIPT[-1]

    def stored(self, *blocks):
        """The blocks that the last call has the owner store, in their order."""
        o = self.last
        assert blocks == (*[o.slot] * (o.slot > 0), *further_blocks(o), *[0] * o.block0), SCRIPT[-1]

    def holds(self, place, *words):
        """The words of an image up to the last in use: 0 for a free word, a label and its code, or the ID of an open Request alone."""
        labels = im.state_of(self.image[place]).labels
        shown = [((ident,) if w == OPEN else (w & 0xFFFFF, w >> 20)) if w else 0 for w, ident in zip(labels.words, labels.ids)]
        assert shown == [*words, *[0] * (len(shown) - len(words))], (SCRIPT[-1], shown)

    def indexed(self, place, *prefixes):
        """The prefixes of the labels, by their words, up to the last that has one: in dotted form, or None."""
        labels = im.state_of(self.image[place]).labels
        beside = [dotted(entry) if lists_label(w) else None for w, entry in zip(labels.words, labels.entries)]
        assert beside == [*prefixes, *[None] * (len(beside) - len(prefixes))], (SCRIPT[-1], beside)

    def marked(self, place, marks):
        assert im.state_of(self.image[place]).marks == marks, SCRIPT[-1]

    # What is done to the images and phases.
    def counts(self, place, name):
        step(name, "counts", place)
        LINES.append(f"{name} {' '.join(im.report(self.image[place]))}")

    def request_at(self, place, name, i):
        """Whether the i-th word is an open Request, and its ID."""
        step(name, "request", place, i)
        sound = im.refusal(self.image[place]) is None
        labels = im.state_of(self.image[place]).labels
        is_open = sound and i < len(labels.words) and labels.words[i] == OPEN
        LINES.append(f"{name} open {int(is_open)} id {labels.ids[i] if is_open else 0}")

    def put(self, place, phase):
        step("", phase[0], place, *(1 if n == c.RESUMED else n for n in phase[1:]))
        self.phase[place] = phase

    def copy(self, place, source):
        step("", "copy", place, source)
        self.image[place] = bytearray(self.image[source][: len(self.image[place])])
        self.phase[place] = self.phase[source]

    def block(self, place, k, source, j):
        step("", "copy", place, source, k, j)
        self.image[place][im.BLOCK * k : im.BLOCK * (k + 1)] = im.block_of(self.image[source], j)
        self.phase[place] = self.phase[source]

    def spoil(self, place, at, byte):
        step("", "spoil", place, at, byte)
        self.image[place][at] = byte

    def lay(self, place, k, block):
        """Block k becomes another, byte by byte."""
        for at, byte in enumerate(block, im.BLOCK * k):
            if self.image[place][at] != byte:
                self.spoil(place, at, byte)

    def numbered(self, place, **numbers):
        """Other numbers in block 0."""
        st = im.state_of(self.image[place])
        for name, n in numbers.items():
            setattr(st, name, n)
        self.lay(place, 0, st.block())
