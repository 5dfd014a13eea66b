#!/usr/bin/env python3
"""The rows that label_table prints: what the label rules of tests/paper make of a label under each code, and beside an open Request.

    tests/labels/make.py            writes crates/label_table/stdout
    tests/labels/make.py --check    fails where the stored file is another
"""
import pathlib
import sys

sys.dont_write_bytecode = True
sys.path.append(str(pathlib.Path(__file__).resolve().parents[1]))
from paper.labels import COUNT, EVERY, NO_ENTRY, OPEN, Labels, word  # noqa: E402
from paper.wire import MAPPING, RELEASE, WITHDRAW  # noqa: E402
from stored import settle  # noqa: E402

KINDS = (("mapping", MAPPING), ("withdraw", WITHDRAW), ("release", RELEASE))
ID = 9


def row(name, event, full=False):
    """For each code of label 16, and for an open Request in the place of a label: the answer, and the codes of the first two words. The first word
    has the ID 9 beside it. A full list has labels of code 1 in all other words."""
    line = name
    for code in range(10):
        words = [word(100 + i, 1) for i in range(COUNT)] if full else [0] * COUNT
        if code:
            words[0] = OPEN if code == 7 else word(16, code)
        labels = Labels(words, [ID])
        line += f" | {event(labels)} {labels.words[0] >> 20} {labels.words[1] >> 20}"
    return line


def received(kind, label, protected, ident=None):
    """`ident` is the ID that the message names. No ACK comes with it, and its FEC is no prefix, as all are in the list."""

    def event(labels):
        old = [*labels.words]
        return labels.judge(kind, label, protected) or labels.take(kind, label, protected, labels.end(ident), old)

    return event


def asked(labels, ident=ID):
    return 6 if labels.asked(ident) is not None else labels.ask(ident)


def ended(labels, ident=ID):
    return 6 if labels.end(ident) is None else 0


def rows_of_requests():
    """A Request and an Abort of the ID 9 accepted, and of another."""
    yield row("accept request", asked)
    yield row("accept full request", asked, True)
    yield row("accept other request", lambda labels: asked(labels, ID + 1))
    yield row("accept abort", ended)
    yield row("accept other abort", lambda labels: ended(labels, ID + 1))


def rows_received(protected):
    for name, kind in KINDS:
        yield row(f"receive {name}", received(kind, 16, protected))
        yield row(f"receive full {name}", received(kind, 16, protected), True)
        yield row(f"receive 15 {name}", received(kind, 15, protected))
    yield row("receive naming mapping", received(MAPPING, 16, protected, ID))
    yield row("receive naming full mapping", received(MAPPING, 16, protected, ID), True)
    yield row("receive naming 15 mapping", received(MAPPING, 15, protected, ID))
    yield row("receive naming other mapping", received(MAPPING, 16, protected, ID + 1))
    for name, kind in KINDS[1:]:
        yield row(f"receive every {name}", received(kind, EVERY, protected))
        yield row(f"receive other {name}", received(kind, NO_ENTRY, protected))


def rows():
    for name, kind in KINDS:
        yield row(f"accept {name}", lambda labels: labels.accept(kind, 16))
        yield row(f"accept full {name}", lambda labels: labels.accept(kind, 16), True)
        yield row(f"accept 15 {name}", lambda labels: labels.accept(kind, 15))
        yield row(f"ack {name}", lambda labels: labels.acknowledge(kind, 16))
    yield from rows_of_requests()
    yield "protected"
    yield from rows_received(True)
    yield "unprotected"
    yield from rows_received(False)
    yield row("break", Labels.lose_connection)


settle({"label_table/stdout": "".join(line + "\n" for line in rows()).encode()})
