#!/usr/bin/env python3
"""Images for the converter, and what it must make of each: tests/programs/run.sh runs convert_image on them.

    tests/images/conversions.py FOLDER    writes, for each case, NAME.in (the image given), NAME.args (the direction), NAME.line (what is to be printed: `converted N bytes`, or
                                          the refusal) and, where it is moved, NAME.out (the image that is to be written)

Each case states its answer; the converter of tests/paper must say the same. What is moved is a case of the other direction too, with the image given as its output.
"""
import pathlib
import sys

sys.dont_write_bytecode = True
sys.path.append(str(pathlib.Path(__file__).resolve().parents[1]))
from images.make import ALL_ASKED, ALL_USED, BLOCK, EARLIER, EARLIEST, GIVEN16, NONE, ONE, PAPER, REQUESTS, SIZE, TEN, THREE  # noqa: E402
from images.make import block0, damaged, earlier, full_ring, image, indexed, lines, mapping_slot, refused, with_byte  # noqa: E402
from paper.convert import converted  # noqa: E402
from paper.image import State, index_blocks, requests_block  # noqa: E402
from paper.labels import COUNT, OPEN, PLACES, word  # noqa: E402
from paper.numbers import LAST  # noqa: E402

FORWARD, BACK = "forward", "back"
VERSION = {FORWARD: 1, BACK: 2}
FREE = [0] * COUNT


def one(words=(), **fields):
    return image(block0(words, layout=1, **fields))


def slots(zeroth):
    return image(zeroth, THREE)


def entries(zeroth, last=NONE):
    """10.0.0.0/8 beside every place but the last, and what is given beside that one."""
    return image(zeroth, index=index_blocks([bytes.fromhex(entry) for entry in [TEN] * COUNT + [last]]))


MOVED = [
    (FORWARD, "paper", ONE),
    (FORWARD, "kept_0", image(State(layout=1).block())),
    (FORWARD, "kept_0_with_ids", image(State(layout=1).block(), requests=requests_block([7] * PLACES))),
    (FORWARD, "full_ring", full_ring(layout=1)),
    (FORWARD, "no_timeout", one(timeout=0)),
    (FORWARD, "longest_timeout", one(timeout=65535)),
    (FORWARD, "unprotected_and_marks", one([word(30, 6), OPEN], marks=6)),
    (FORWARD, "word_before_the_last", one(FREE[1:] + GIVEN16)),
    (FORWARD, "first_release", earlier(ONE, EARLIEST, True)),
    (FORWARD, "before_the_index", earlier(full_ring(layout=1), EARLIER, True)),
    (FORWARD, "prefixes", entries(block0(ALL_USED, layout=1))),
    (FORWARD, "kept_0_with_entries", entries(State(layout=1).block(), "ff" * 8)),
    (FORWARD, "dead_slots_damaged", image(block0(GIVEN16, layout=1, held=1), {0: mapping_slot()}, bytes(range(256)) * 2)),
    (BACK, "id_of_no_word", image(block0(ALL_ASKED), requests=requests_block([*range(COUNT), 0]))),
    (BACK, "entry_of_no_word", entries(block0(ALL_USED), "ff" * 8)),
    (BACK, "one_second", image(block0(timeout=1000))),
]
REFUSED = [
    (FORWARD, "last_word_given", one(FREE + GIVEN16), 16, 0),
    (FORWARD, "last_word_unprotected", one([*FREE, word(30, 6)]), 16, 0),
    (FORWARD, "last_word_a_request", one([*FREE, OPEN]), 16, 0),
    (FORWARD, "version_2", PAPER, 11, 0),
    (FORWARD, "version_2_kept_0", image(State().block()), 11, 0),
    (FORWARD, "empty", b"", 12, 0),
    (FORWARD, "byte_short", ONE[:-1], 12, 0),
    (FORWARD, "byte_long", ONE + b"\0", 12, 0),
    (FORWARD, "first_release_not_extended", earlier(ONE, EARLIEST), 12, 0),
    (FORWARD, "before_the_index_not_extended", earlier(ONE, EARLIER), 12, 0),
    (FORWARD, "check_of_block_0", damaged(ONE, 100), 10, 0),
    (FORWARD, "check_of_block_3", damaged(slots(block0(layout=1, held=3)), 3 * BLOCK + 60), 10, 3),
    (FORWARD, "field_of_block_1", image(block0(layout=1, held=1), {0: mapping_slot(label=17)}), 11, 1),
    (FORWARD, "check_of_block_65", damaged(ONE, BLOCK * REQUESTS + 60), 10, 65),
    (FORWARD, "block_65_before_16", image(block0([*FREE[1:], OPEN, OPEN], layout=1), requests=requests_block([0] * PLACES)), 11, 65),
    (FORWARD, "check_of_block_66", damaged(ONE, BLOCK * 66 + 60), 10, 66),
    (FORWARD, "check_of_block_67", damaged(ONE, BLOCK * 67 + 60), 10, 67),
    (FORWARD, "byte_behind_the_entries", ONE[: BLOCK * 67] + with_byte(block0(), 67, 480)[BLOCK * 67 :], 11, 67),
    (FORWARD, "last_entry_before_16", entries(block0([*ALL_USED, *GIVEN16], layout=1), "ff" * 8), 11, 67),
    (FORWARD, "last_entry_16", entries(block0([*ALL_USED, *GIVEN16], layout=1), TEN), 16, 0),
    (FORWARD, "word_of_label_15", one([word(15, 3)]), 11, 0),
    (FORWARD, "last_word_twice", one([*GIVEN16, *FREE[1:], *GIVEN16]), 11, 0),
    (BACK, "a_millisecond_more", image(block0(timeout=5001)), 16, 0),
    (BACK, "no_whole_second", image(block0(timeout=999)), 16, 0),
    (BACK, "a_second_too_long", image(block0(timeout=65536000)), 16, 0),
    (BACK, "longest_milliseconds", image(block0(timeout=LAST)), 16, 0),
    (BACK, "version_1", ONE, 11, 0),
    (BACK, "byte_21_set", image(block0(zero=1)), 11, 0),
    (BACK, "byte_long", PAPER + b"\0", 12, 0),
    (BACK, "check_of_block_0", damaged(PAPER, 100), 10, 0),
    (BACK, "field_of_block_66", indexed([0, *GIVEN16], [NONE, "ff" * 8]), 11, 66),
    (BACK, "checks_before_16", damaged(image(block0(timeout=1)), SIZE - 1), 10, 67),
]


def main():
    folder, made = pathlib.Path(sys.argv[1]), []
    for way, name, data in MOVED:
        out, again = converted(data, VERSION[way]), FORWARD if way == BACK else BACK
        assert isinstance(out, bytes) and converted(out, VERSION[again]) == data and out[BLOCK:] == data[BLOCK:], name
        line = [f"converted {len(data)} bytes"]
        made += [(way, name, data, out, line), (again, f"{name}_again", out, data, line)]
    for way, name, data, answer, block in REFUSED:
        assert converted(data, VERSION[way]) == (answer, block), (name, converted(data, VERSION[way]))
        made.append((way, f"{way}_{name}", data, None, refused(answer, block)))
    for way, name, data, out, line in made:
        (folder / f"{name}.in").write_bytes(data)
        (folder / f"{name}.args").write_text(way)
        (folder / f"{name}.line").write_bytes(lines(line))
        if out is not None:
            (folder / f"{name}.out").write_bytes(out)


main()
