"""The label list, from the build paper's words "Label list" and "What each answer does", with the open Requests of ticket 2 of 02, the end of a
withdrawal of ticket 4 and the index of prefixes of ticket 6."""

from .wire import MAPPING, RELEASE, WITHDRAW

COUNT = 119  # ticket 5: "119 labels"
PLACES = 120  # of IDs and of entries; the last has no word beside it
# "A label stands once among codes 1-2 and once among 3-6"; ticket 4: the rules "now cover" 8 and 9, of a label that we gave too
GIVEN, USED = (1, 2, 8, 9), (3, 4, 5, 6)
SENT_SIDE = {MAPPING: GIVEN, WITHDRAW: GIVEN, RELEASE: USED}
RECEIVED_SIDE = {MAPPING: USED, WITHDRAW: USED, RELEASE: GIVEN}
EVERY = "every"  # in the place of a label: all of a side; an entry stands there for those of its prefix
NO_ENTRY = bytes(8)  # "zeros for other FECs"

# "Accepted for sending: Mapping, absent or 1, becomes 1; Withdraw, 1 becomes 2; Release, 3 becomes 5, 4 becomes free."
ACCEPTED = {MAPPING: {0: 1, 1: 1}, WITHDRAW: {1: 2}, RELEASE: {3: 5, 4: 0}}
# "Released by ACK: Withdraw 2 becomes free; Release 5 becomes free; other codes stay." Ticket 4: "Free a withdrawn label at the second of Release and ACK.
# Codes 8 (the ACK) and 9 (the Release) say which one has come"
ACKED = {MAPPING: {}, WITHDRAW: {2: 8, 9: 0}, RELEASE: {5: 0}}
# "Received: Mapping protected, absent or 3 or 5 becomes 3, 4 stays; unprotected, absent becomes 6, 6 stays.
# Withdraw: 3 becomes 4; 4, 5 stay; 6 becomes free. Release: 1, 2 become free." Ticket 4: "A Release at code 1 still frees it."
RECEIVED = {MAPPING: {True: {0: 3, 5: 3}, False: {0: 6}}, WITHDRAW: {3: 4, 6: 0}, RELEASE: {1: 0, 2: 9, 8: 0}}
# "(Mapping and Withdraw 3-5, Release 1-2)"; ticket 4: that its Release is protected covers 8 and 9
NEEDS_PROTECTION = (1, 2, 3, 4, 5, 8, 9)


def word(label, code):
    return label + 1048576 * code


# "An open Request takes one of the .. words under code 7, with label part 0"
OPEN = word(0, 7)


def lists_label(w):
    """ "An entry is looked at only where the word lists a label": neither a free word nor an open Request's does."""
    return w >> 20 in GIVEN + USED


def masked(length, prefix):
    """ "prefix with zeros past its length" """
    past = (1 << 32 - length) - 1
    return (int.from_bytes(prefix, "big") & ~past).to_bytes(4, "big")


def entry_of(fec):
    """ "1, length, two zeros, prefix with zeros past its length; zeros for other FECs". "Only a FEC of one well-formed IPv4 prefix element is indexed" (RFC 3036:
    02, family 00 01, the length in bits, as many bytes as it needs)."""
    if fec[:3] != b"\2\0\1" or len(fec) < 4 or fec[3] > 32 or len(fec) != 4 + (fec[3] + 7) // 8:
        return NO_ENTRY
    return bytes([1, fec[3], 0, 0]) + masked(fec[3], fec[4:].ljust(4, b"\0"))


def entry_right(entry):
    if entry == NO_ENTRY:
        return True
    return entry[0] == 1 and entry[1] <= 32 and entry[2:4] == bytes(2) and entry[4:] == masked(entry[1], entry[4:])


class Labels:
    """The words: each is label + 1,048,576 x code, and 0 is a free word. Beside each an ID, which counts only where the word is OPEN, and an entry of the
    index, which counts only where the word lists a label."""

    def __init__(self, words=(), ids=(), count=COUNT, entries=()):
        self.words = [*words, *[0] * (count - len(words))]
        self.ids = [*ids, *[0] * (PLACES - len(ids))]
        self.entries = [*entries, *[NO_ENTRY] * (PLACES - len(entries))]

    def listed(self):
        return [(w & 0xFFFFF, w >> 20) for w in self.words if w]

    def place(self, side, label):
        return next((i for i, w in enumerate(self.words) if w and w >> 20 in side and w & 0xFFFFF == label), None)

    def asked(self, ident):
        """The place of the open Request with that ID; no ID, no place."""
        return next((i for i, w in enumerate(self.words) if w == OPEN and self.ids[i] == ident), None)

    def ask(self, ident):
        """A Request takes the first free word, and its ID the same place of the list beside; 13 where no word is free."""
        if 0 not in self.words:
            return 13
        i = self.words.index(0)
        self.words[i], self.ids[i] = OPEN, ident
        return 0

    def end(self, ident):
        """The Request with that ID ends: its word is free, its ID stays where it is. The place, None where no such Request is open."""
        i = self.asked(ident)
        if i is not None:
            self.words[i] = 0
        return i

    def code(self, side, label):
        i = self.place(side, label)
        return 0 if i is None else self.words[i] >> 20

    def recode(self, side, label, become):
        """The label's code becomes what `become` says of it; other codes stay. A label that becomes free leaves its entry where it is."""
        i = self.place(side, label)
        if i is not None:
            code = become.get(self.words[i] >> 20, self.words[i] >> 20)
            self.words[i] = word(label, code) if code else 0

    def spare(self, old):
        """The first word "that is free in the old block 0 too"; None where there is none."""
        return next((i for i, words in enumerate(zip(old, self.words)) if words == (0, 0)), None)

    def put(self, room, label, code, entry):
        """The label takes the word at `room`, and the entry of its FEC the place beside it. False where there is no room."""
        if room is None:
            return False
        self.words[room], self.entries[room] = word(label, code), entry
        return True

    def accept(self, kind, label, entry=NO_ENTRY):
        """A message of ours: 6 where the label's code does not allow it, or a Mapping would change its entry; 13 where no word is free."""
        side = SENT_SIDE[kind]
        place, become = self.place(side, label), ACCEPTED[kind]
        if label < 16 or self.code(side, label) not in become:
            return 6
        if place is None:
            return 0 if self.put(self.spare(self.words), label, become[0], entry) else 13
        if kind == MAPPING and self.entries[place] != entry:
            return 6
        self.recode(side, label, become)
        return 0

    def acknowledge(self, kind, label):
        self.recode(SENT_SIDE[kind], label, ACKED[kind])
        return 0

    def touched(self, kind, label):
        """The labels that a message received touches on its own side; `label`: a label, EVERY, or an entry. Other FECs than a prefix "stay as in 01"."""
        side = RECEIVED_SIDE[kind]
        beside = [(w & 0xFFFFF, entry) for w, entry in zip(self.words, self.entries) if w >> 20 in side]
        if label is EVERY:
            return [listed for listed, _ in beside]
        if isinstance(label, bytes):
            return [listed for listed, entry in beside if entry == label != NO_ENTRY]
        return [label] if label >= 16 else []

    def judge(self, kind, label, protected):
        """Protection is missing (33) or wrong (32)."""
        codes = [self.code(RECEIVED_SIDE[kind], touched) for touched in self.touched(kind, label)]
        if not protected:
            return 33 if any(code in NEEDS_PROTECTION for code in codes) else 0
        return 32 if isinstance(label, int) and kind in (MAPPING, WITHDRAW) and 6 in codes else 0

    def take(self, kind, label, protected, request, old, entry=NO_ENTRY):
        """A message of the peer's; `request` is the word of the Request that it has ended, `old` are the words before the call. 21 where no word is free."""
        if kind == MAPPING:
            return self.take_mapping(label, RECEIVED[kind][protected], self.spare(old) if request is None else request, entry)
        for touched in self.touched(kind, label):
            self.recode(RECEIVED_SIDE[kind], touched, RECEIVED[kind])
        return 0

    def take_mapping(self, label, become, room, entry):
        """A label that is absent takes the word at `room`; one "that would change a listed label's entry moves it, with 01's code, to a new word"."""
        if label < 16:
            return 0
        place, code = self.place(USED, label), self.code(USED, label)
        if place is not None and self.entries[place] == entry:
            self.recode(USED, label, become)
            return 0
        if not self.put(room, label, become.get(code, code), entry):
            return 21
        if place is not None:
            self.words[place] = 0
        return 0

    def lose_connection(self):
        """ "Connection failed: code 6 words are freed" """
        self.words = [0 if w >> 20 == 6 else w for w in self.words]
        return 0

    def valid(self):
        """Open Requests stand "outside the rule of standing once"."""
        rest = [(label, code) for label, code in self.listed() if word(label, code) != OPEN]
        sides = [(code in GIVEN, label) for label, code in rest]
        return len(set(sides)) == len(sides) and all(code in GIVEN + USED and label >= 16 for label, code in rest)
