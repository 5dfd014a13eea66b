"""Withdrawals by prefix, from ticket 6 of 02: parts of the script that make.py writes."""

from answers import keepalive, without_label
from pair import COPY, KEPT, P1, P2, request_message
from paper.image import BLOCK, INDEX, index_blocks
from paper.wire import FEC, MAPPING, RELEASE, TYPE, WITHDRAW, ack_tlv, label_tlv, message, protection_tlv, request_id_tlv, tlv

ID = 9


def prefix(text):
    """The FEC TLV by the bytes of its value."""
    return tlv(FEC, bytes.fromhex(text))


TEN, TEN_OF_9, ELEVEN = prefix("02 0001 08 0a"), prefix("02 0001 09 0a00"), prefix("02 0001 08 0b")
OTHER = prefix("")


def about(kind, fec, *tlvs):
    return message(TYPE[kind], ID, fec, *tlvs)


def mapping(label, fec, *tlvs):
    return about(MAPPING, fec, label_tlv(label), *tlvs)


def on_copies(p, rows):
    """Messages that P1 receives: the answer, and the words that are left; none where the state is released."""
    for answer, m, words in rows:
        p.copy(COPY, P1)
        p.receive(COPY, f"P1 receive {m.hex()}", m)
        p.answered(answer)
        p.holds(COPY, *words)


def given(p, *labels):
    """P2 gives labels, each of its FEC."""
    for label, fec in labels:
        p.submit(P2, f"P2 submit Mapping {label}", mapping(label, fec))
        p.pass_on(P2, ack=True)


# P1's words: 16 and 17 of 10.0.0.0/8, 18 of 10.0.0.0/9, 19 of another FEC, 1000 of 10.0.0.0/8 without protection; and its own label 16 of 10.0.0.0/8.
WORDS = ((16, 3), (17, 3), (18, 3), (19, 3), (1000, 6), (16, 1))


def words(*changed):
    """The words with others at some places."""
    return [dict(changed).get(i, word) for i, word in enumerate(WORDS)]


NEXT = protection_tlv(5)
BY_PREFIX = (
    # "which 33 reads as touched"; protected it acts on the label of code 6 too
    (33, about(WITHDRAW, TEN), ()),
    (0, about(WITHDRAW, TEN, NEXT), words((0, (16, 4)), (1, (17, 4)), (4, 0))),
    # bits past the length are masked; another length is another prefix
    (0, about(WITHDRAW, prefix("02 0001 09 0a7f"), NEXT), words((2, (18, 4)))),
    (0, about(WITHDRAW, prefix("02 0001 09 0a80")), WORDS),
    # of the receiver's own side alone
    (33, about(RELEASE, TEN), ()),
    (0, about(RELEASE, TEN, NEXT), words((5, 0))),
    (0, about(RELEASE, TEN_OF_9), WORDS),
    # a prefix of no label, and FECs that are no prefix, though 19 has the same entry
    (0, about(WITHDRAW, ELEVEN), WORDS),
    (0, about(WITHDRAW, ELEVEN, NEXT), WORDS),
    (0, without_label(WITHDRAW), WORDS),
    (0, about(WITHDRAW, prefix("02 0001 08 0a 02 0001 08 0a"), NEXT), WORDS),
    (0, about(WITHDRAW, prefix("02 0001 08 0a00"), NEXT), WORDS),
    # a named label counts alone, and its FEC is not compared
    (0, about(WITHDRAW, TEN, label_tlv(18), NEXT), words((2, (18, 4)))),
)


def at_once(p):
    """ "FEC-only Withdraw and Release then act on exactly the labels of that prefix" """
    p.title("a prefix of two labels withdrawn at once")
    p.fresh()
    given(p, (16, TEN), (17, TEN), (18, TEN_OF_9), (19, OTHER))
    p.receive(P1, "P1 receive Mapping 1000, unprotected", mapping(1000, prefix("02 0001 08 0a")))
    p.submit(P1, "P1 submit Mapping 16", mapping(16, TEN))
    p.stored(1, INDEX, 0)
    p.holds(P1, *WORDS)
    p.indexed(P1, "10.0.0.0/8", "10.0.0.0/8", "10.0.0.0/9", None, "10.0.0.0/8", "10.0.0.0/8")
    on_copies(p, BY_PREFIX)
    # "6 for submitting such a Mapping"; of the same prefix it is taken
    for fec, answer in ((TEN_OF_9, 6), (OTHER, 6), (TEN, 0)):
        p.submit(P1, "P1 submit Mapping 16", mapping(16, fec))
        p.answered(answer)


def extended(p):
    """An image of tickets 2 to 5, extended: its entries are zeros, so "its labels then count as of other FECs"."""
    p.title("an image without the index, extended")
    p.copy(KEPT, P1)
    for k, block in enumerate(index_blocks()[i : i + BLOCK] for i in (0, BLOCK)):
        p.lay(KEPT, INDEX + k, block)
    p.copy(P1, KEPT)
    p.indexed(P1)
    on_copies(
        p,
        (
            (0, about(WITHDRAW, TEN, NEXT), WORDS),
            (0, without_label(WITHDRAW, NEXT), WORDS),
            (0, about(WITHDRAW, TEN, label_tlv(16), NEXT), words((0, (16, 4)))),
            (0, mapping(17, OTHER, NEXT), WORDS),
            (0, mapping(17, TEN, NEXT), [*words((1, 0)), (17, 3)]),
        ),
    )


# The FECs of labels 20 to 26, and the prefix of each.
FECS = (
    ("02 0001 00", "0.0.0.0/0"),
    ("02 0001 20 00000000", "0.0.0.0/32"),
    ("02 0001 20 ffffffff", "255.255.255.255/32"),
    ("02 0001 1f ffffffff", "255.255.255.254/31"),
    ("02 0001 01 ff", "128.0.0.0/1"),
    ("02 0001 21 ffffffff80", None),
    ("02 0002 08 0a", None),
)


def lengths(p):
    """ "Length 0 counts"; more than 32 bits, or another family, is another FEC."""
    p.title("prefixes of length 0 and 32")
    p.fresh()
    for i, (text, _) in enumerate(FECS):
        p.receive(P1, f"P1 receive Mapping {20 + i}", mapping(20 + i, prefix(text), protection_tlv(1 + i)))
        p.stored(*[INDEX] * (FECS[i][1] is not None), 0)
    p.indexed(P1, *(shown for _, shown in FECS))
    used = [(20 + i, 3) for i in range(len(FECS))]
    for i, (text, shown) in enumerate(FECS):
        asked = [(label, 4 if label == 20 + i and shown else code) for label, code in used]
        on_copies(p, [(0, about(WITHDRAW, prefix(text), protection_tlv(8)), asked)])


def moved(p):
    """ "A received Mapping that would change a listed label's entry moves it, with 01's code, to a new word"."""
    p.title("a label that moves")
    p.fresh()
    given(p, (16, TEN), (17, TEN), (18, TEN))
    p.receive(P1, "P1 receive Mapping 1000, unprotected", mapping(1000, TEN))
    p.withdraw(P2, 17)
    p.pass_on(P2)
    p.release(P1, 18)
    p.submit(P1, "P1 submit Request 7", request_message(7))
    p.holds(P1, (16, 3), (17, 4), (18, 5), (1000, 6), (7,))
    due = protection_tlv(5)
    on_copies(
        p,
        (
            (0, mapping(16, TEN_OF_9, due), (0, (17, 4), (18, 5), (1000, 6), (7,), (16, 3))),
            (0, mapping(17, OTHER, due), ((16, 3), 0, (18, 5), (1000, 6), (7,), (17, 4))),
            (0, mapping(18, TEN_OF_9, due), ((16, 3), (17, 4), 0, (1000, 6), (7,), (18, 3))),
            (0, mapping(1000, TEN_OF_9), ((16, 3), (17, 4), (18, 5), 0, (7,), (1000, 6))),
            # to its Request's word; where it does not move, that word becomes free
            (0, mapping(18, TEN_OF_9, request_id_tlv(7), due), ((16, 3), (17, 4), 0, (1000, 6), (18, 3))),
            (0, mapping(18, TEN, request_id_tlv(7), due), ((16, 3), (17, 4), (18, 3), (1000, 6))),
            (0, mapping(1000, OTHER, request_id_tlv(7)), ((16, 3), (17, 4), (18, 5), 0, (1000, 6))),
            # turned away, it moves nothing
            (33, mapping(16, TEN_OF_9), ()),
            (32, mapping(1000, TEN_OF_9, due), ()),
            (20, mapping(16, TEN_OF_9, protection_tlv(6)), ((16, 3), (17, 4), (18, 5), 0, (7,))),
        ),
    )


def freed_by_ack(p):
    """ "the first that is free in the old block 0 too": the ACK of the Release frees 18's word, which is not taken."""
    p.title("a word that the ACK frees")
    for _ in range(2):
        p.send_lost(P1)
    due = (protection_tlv(5), ack_tlv(1))
    on_copies(
        p,
        (
            (0, keepalive(ack_tlv(1)), ((16, 3), (17, 4), 0, (1000, 6), (7,))),
            (0, mapping(30, TEN, *due), ((16, 3), (17, 4), 0, (1000, 6), (7,), (30, 3))),
            (0, mapping(18, TEN, *due), ((16, 3), (17, 4), 0, (1000, 6), (7,), (18, 3))),
            (0, mapping(16, OTHER, *due), (0, (17, 4), 0, (1000, 6), (7,), (16, 3))),
        ),
    )


# P1's words, and those of its image in the store after a cut: what was used without protection is free.
BEFORE = ((16, 3), (17, 4), (18, 5), (1000, 6), (7,))
RESTORED = ((16, 3), (17, 4), (18, 5), 0, (7,))


def cut(p, call, name, m, *stores):
    """A call is made on a copy, and the power is cut behind each block that it stores before block 0."""
    p.copy(KEPT, P1)
    p.copy(COPY, P1)
    call(COPY, f"P1 {name}, power cut", m)
    p.stored(*stores, 0)
    for k in stores:
        p.block(KEPT, k, COPY, k)
        p.counts(KEPT, "P1 in the store")
        p.holds(KEPT, *BEFORE)
    p.indexed(KEPT, "10.0.0.0/8", "10.0.0.0/8", "10.0.0.0/8", "10.0.0.0/8")
    p.restore(KEPT, "P1 restore")
    p.answered(0, "Failed")
    p.stored(0)
    p.holds(KEPT, *RESTORED)


def cuts(p):
    """ "so a cut leaves the old state": after the slot and block 66 in Submit, after block 66 in Receive."""
    p.title("a power cut between the index and block 0")
    cut(p, p.submit, "submit Mapping 40", mapping(40, ELEVEN), 3, INDEX)
    cut(p, p.receive, "receive Mapping 40", mapping(40, ELEVEN, protection_tlv(5)), INDEX)
    cut(p, p.receive, "receive Mapping 16 of another prefix", mapping(16, ELEVEN, protection_tlv(5)), INDEX)
    cut(p, p.receive, "receive Mapping 18 for 7", mapping(18, ELEVEN, request_id_tlv(7), protection_tlv(5)), INDEX)
    # The entry is there already: as after a cut, or where another label of the prefix stood there before.
    p.copy(COPY, KEPT)
    p.submit(COPY, "P1 submit Mapping 41", mapping(41, TEN))
    p.stored(3, 0)
    p.indexed(COPY, *["10.0.0.0/8"] * 4)


PARTS = (at_once, extended, lengths, moved, freed_by_ack, cuts)
