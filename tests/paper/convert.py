"""The converter, from ticket 5 of 02: an image of version 1 moved to version 2, and back."""

from .image import BLOCK, WORDS, State, refusal, state_of


def converted(image, version):
    """The image that one of this version becomes in the other, or why it does not: an answer and a block."""
    bad = refusal(image, version)
    if bad:
        return bad
    st = state_of(image, version)
    words = st.labels.words
    # "16, the last of the 120 label words in use going forward, or a timeout that isn't whole seconds up to 65,535 going back"
    if words[WORDS[2] :] != [0] * (len(words) - WORDS[2]) or version == 2 and st.timeout not in range(0, 65536000, 1000):
        return 16, 0
    moved = State(words[: WORDS[2]], layout=3 - version)
    for name in ("released", "issued", "secured", "first", "held", "kept", "marks", "keepalive", "maxpdu"):
        setattr(moved, name, getattr(st, name))
    moved.timeout = st.timeout * 1000 if version == 1 else st.timeout // 1000
    return moved.block() + bytes(image[BLOCK:])
