"""Numbers on a circle and timeouts, from the build paper's words "Numbers on a circle" and ticket 5 of 02: stated by walking the circle."""

LAST = 0xFFFFFFFF
# the seconds proposed where the owner gives none
DEFAULT = 30
SECOND = 1000


def successor(n):
    """FT numbers run 1 to 0xFFFFFFFF, then 1 again; 0 is "none" and its successor is 1."""
    return 1 if n == LAST else n + 1


def steps(a, b):
    """How many successors lead from a to b, None where none do: "none" stands before 1, and nothing leads to it."""
    if b == 0:
        return 0 if a == 0 else None
    if a == 0:
        return b
    return b - a if b >= a else (LAST - a) + b


def advance(a, k):
    """The k-th successor of a."""
    place = a + k  # counted from "none", unrolled
    while k and place > LAST:
        place -= LAST
    return place


def next_number(secured, n, resumed):
    """The test of the next number: 0 and how many were left out before it, 20 or 30. "On a resumed connection accept a number 1 to 64 steps ahead of S"; else it must
    be the successor."""
    if n == 0:
        return 30, 0
    ahead = secured
    for left_out in range(64 if resumed else 1):
        ahead = successor(ahead)
        if ahead == n:
            return 0, left_out
    return 20, 0


def distance(a, b):
    """The signed distance from a to b, None where one of them is "none"."""
    if a == 0 or b == 0:
        return None
    there, back = steps(a, b), steps(b, a)
    return there if there <= back else -back


def acknowledged(r, i, a):
    """How many messages an ACK releases: it is right if it is R or one of the numbers up to I; None where it is wrong."""
    through, window = steps(r, a), steps(r, i)
    return None if through is None or window is None or through > window else through


def lesser(a, b):
    """The lesser of two timeouts in one unit, zero counting as infinite."""
    return min((t for t in (a, b) if t), default=0)


def milliseconds(said, published):
    """A timeout in milliseconds, which RFC 3479's form says and the draft's does not."""
    return said if published else said * SECOND


def proposed(given, published):
    """What our Init says: the owner's proposal in the unit of its form, or 30 seconds in that unit."""
    if given is not None:
        return given
    return DEFAULT * SECOND if published else DEFAULT
