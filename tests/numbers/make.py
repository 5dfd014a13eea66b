#!/usr/bin/env python3
"""The output of numbers_vectors: the rules of tests/paper on numbers and timeouts at the ends of their ranges.

    tests/numbers/make.py            writes crates/numbers_vectors/stdout
    tests/numbers/make.py --check    fails where the stored file is another
"""
import pathlib
import sys

sys.dont_write_bytecode = True
sys.path.append(str(pathlib.Path(__file__).resolve().parents[1]))
from paper.numbers import LAST, acknowledged, advance, distance, lesser, milliseconds, next_number, proposed, steps, successor  # noqa: E402
from stored import settle  # noqa: E402

EDGES = [0, 1, 2, 64, 65, 2**31 - 2, 2**31 - 1, 2**31, 2**31 + 1, LAST - 1, LAST]
WINDOWS = [(0, 0), (0, 5), (LAST - 1, 1), (1, 65), (LAST, 64), (5, 5)]
TIMEOUTS = [0, 1, 5, 30000, 65535000, LAST]
# a form's proposals, None where the owner gives none
PROPOSALS = {False: [None, 0, 5, 65535], True: [None, 0, 5, LAST]}


def or_else(value, otherwise):
    return otherwise if value is None else str(value)


def acknowledge(r, i, a):
    count = acknowledged(r, i, a)
    return "sequence error" if count is None else f"releases {count}"


def turn(secured, n, resumed):
    answer, left_out = next_number(secured, n, resumed)
    return {0: f"left out {left_out}", 20: "out of turn", 30: "zero number"}[answer]


def lines():
    for a in EDGES:
        yield f"successor {a} {successor(a)}"
        for b in EDGES:
            yield f"steps {a} {b} {or_else(steps(a, b), 'unreachable')}"
            yield f"distance {a} {b} {or_else(distance(a, b), 'refused')}"
            yield f"advance {a} {b} {advance(a, b)}"
            yield f"next {a} {b} {turn(a, b, False)}"
            yield f"next resumed {a} {b} {turn(a, b, True)}"
    for (r, i), t in zip(WINDOWS, TIMEOUTS):
        for a in EDGES:
            yield f"acknowledge {r} {i} {a} {acknowledge(r, i, a)}"
        for u in TIMEOUTS:
            yield f"lesser timeout {t} {u} {lesser(t, u)}"
    for published, given in PROPOSALS.items():
        for proposal in given:
            said = proposed(proposal, published)
            yield f"proposed {'milliseconds' if published else 'seconds'} {said} is {milliseconds(said, published)}"


def marked():
    """The build paper's marked cases on numbers and timeouts, P1 to P9, against the rules above."""
    assert (lesser(0, 5), lesser(0, 0), lesser(65535, 0)) == (5, 0, 65535)
    assert [acknowledge(LAST - 1, 1, a) for a in (1, 0, 2, LAST - 1)] == ["releases 2", "sequence error", "sequence error", "releases 0"]
    assert (distance(LAST, 1), distance(1, 0x80000001)) == (1, -2147483647)


marked()
settle({"numbers_vectors/stdout": "".join(line + "\n" for line in lines()).encode()})
