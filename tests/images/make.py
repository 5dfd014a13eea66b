#!/usr/bin/env python3
"""The stored images that the image printer is run on, and what it must print; and one that the converter refuses (the others: conversions.py).

    tests/images/make.py            writes crates/print_image/{stdin,stdout}, crates/print_image_cases/{args,data,stdout} and crates/convert_image/{args,stdin,stdout}
    tests/images/make.py --check    fails where a stored file is another

Made with the block check and layout of tests/paper. Each case states what is to be printed; restore's checks there must say the same.
"""
import pathlib
import sys

sys.dont_write_bytecode = True
sys.path.append(str(pathlib.Path(__file__).resolve().parents[1]))
from paper.calls import extend  # noqa: E402
from paper.image import BLOCK, EARLIER_SIZES, INDEX, REQUESTS, SIZE, SLOTS, State, counts, index_blocks, report, requests_block, sealed, slot_block  # noqa: E402
from paper.labels import COUNT, OPEN, PLACES, entry_of, word  # noqa: E402
from paper.numbers import LAST  # noqa: E402
from paper.wire import ABORT, ADDRESS, ADDRESS_WITHDRAW, FEC, MAPPING, NO_RESOURCES, RELEASE, REQUEST, RESOURCES, STATUS_CODE, TYPE, WITHDRAW, ack_tlv  # noqa: E402
from paper.wire import field, label_tlv, message, request_id_tlv, status_tlv, tlv  # noqa: E402
from stored import settle  # noqa: E402

ID = 7
OF_NO_LABEL = LAST


# ---- building
def of_label(kind, n, label):
    return message(TYPE[kind], ID, tlv(FEC, bytes([2, 0, 1, 24, 10, 0, n])), label_tlv(label))


def mapping(label):
    return of_label(MAPPING, label % 256, label)


def padded(kind, *rooms):
    return message(TYPE[kind], ID, *(tlv(0x0101, bytes(room)) for room in rooms))


def altered(block, at, data):
    """A block with other bytes at a place, and a check that fits them."""
    return sealed(block[:at] + data + block[at + len(data) : 508])


def mapping_slot(kind=MAPPING, label=16):
    """The Mapping of label 16 in a slot, which says the kind and the label given."""
    return slot_block(mapping(16), kind, label)


def block0(words=(), **fields):
    """Block 0 of version 2, or by another layout; 5 seconds are agreed."""
    timeout = 5 if fields.get("layout") == 1 else 5000
    return State(words, **{"timeout": timeout, "kept": 1, "keepalive": 30, "maxpdu": 4096, **fields}).block()


def image(zeroth, slots=None, dead=bytes(BLOCK), requests=requests_block(), index=index_blocks()):
    return zeroth + b"".join((slots or {}).get(k, dead) for k in range(SLOTS)) + requests + index


def asking(words, ids):
    """An image of these words, and of these IDs beside them."""
    return image(block0(words), requests=requests_block(ids))


def indexed(words, entries):
    """An image of these words, and of these entries beside them; in hexadecimal."""
    return image(block0(words), index=index_blocks([bytes.fromhex(entry) for entry in entries]))


def with_entry(place, entry):
    """An image of labels in all words, of which one has this entry."""
    return indexed(ALL_USED, [NONE] * place + [entry])


def with_byte(zeroth, k, at):
    """An image with a byte behind the places of a further block, which is sealed again."""
    data = image(zeroth)
    return data[: BLOCK * k] + altered(data[BLOCK * k :][:BLOCK], at, b"\1") + data[BLOCK * (k + 1) :]


def damaged(data, at):
    return data[:at] + bytes([data[at] ^ 1]) + data[at + 1 :]


def by_bytes(start, end):
    """A block by its first and its last bytes, zeros between."""
    start, end = bytes.fromhex(start), bytes.fromhex(end)
    return start + bytes(BLOCK - len(start) - len(end)) + end


def lines(rows):
    return "".join(f"{row}\n" for row in rows).encode()


def refused(answer, block):
    return [f"refused {answer} block {block}"]


# ---- cases
GIVEN16 = [word(16, 1)]
OF_16 = index_blocks([bytes.fromhex("01180000 0a001000")])
PAPER = image(block0(GIVEN16, held=1), {0: mapping_slot()}, index=OF_16)
ONE = image(block0(GIVEN16, layout=1, held=1), {0: mapping_slot()}, index=OF_16)
THREE = {k: slot_block(mapping(20 + k), MAPPING, 20 + k) for k in range(3)}


# The layout by its bytes: R 5, I 6, S 9, first slot 63, 2 held, 5,000 milliseconds, stopped and stopping, the peer's parameters 30 and 4096; label 16 given, two Requests open,
# and 17 used in the last word. The IDs of block 65: 7, which does not count, then those of the Requests, 7 and 0xFFFFFFFF; and the last, which does not count.
# The entries of blocks 66 and 67: 10.0.0.0/8 of 16, beside the Requests what does not count; 192.168.4.0/22 of 17, and the last, which does not count.
BYTES = by_bytes("00000002 00000005 00000006 00000009 003f 0002 0000 01 06 001e 1000 00001388 00100010 00700000 00700000", "00300011 2645 a1c2")
ID_BYTES = by_bytes("00000007 00000007 ffffffff", "00000007" + "00" * 28 + "0016 0f2f")
ENTRY_BYTES = by_bytes("01080000 0a000000 ffffffff ffffffff 00000000 00000001", "0b0a dfeb")
LAST_ENTRY_BYTES = by_bytes("", "01160000 c0a80400 ffffffff ffffffff" + "00" * 28 + "c5bf 7211")
MAPPING_BYTES = by_bytes("001b 01 00 00000010 0400 0017 00000007 0100 0007 02 0001 18 0a0000 0200 0004 00000010", "276b 1e1a")
ADDRESS_BYTES = by_bytes("0008 04 00 ffffffff 0300 0004 00000007", "0714 f599")


def notification(kind):
    return message(TYPE[kind], ID, status_tlv(STATUS_CODE[kind]))


def request(*tlvs):
    return message(TYPE[REQUEST], ID, tlv(FEC, bytes([2, 0, 1, 24, 10, 0, 0])), *tlvs)


def abort(*tlvs):
    return message(TYPE[ABORT], ID, tlv(FEC, b""), *tlvs)


def slot_of(i):
    """A slot by its place in the full ring: every kind, lengths 8 to 480."""
    kind, label = i % 9 + 1, 1000 + i
    if kind <= RELEASE:
        return slot_block(of_label(kind, i, label), kind, label)
    if kind in (ADDRESS, ADDRESS_WITHDRAW):
        return slot_block(padded(kind, *((), (7,), (468,), (100,))[i % 4]), kind, OF_NO_LABEL)
    other = request() if kind == REQUEST else abort(request_id_tlv(i)) if kind == ABORT else notification(kind)
    return slot_block(other, kind, OF_NO_LABEL)


def full_ring(**fields):
    """64 held from slot 40 on, round the end of the ring and of the numbers, with every label code and prefixes of every length."""
    words = [OPEN if i % 9 == 6 else word(1048575 - i, 1 + i % 9) for i in range(COUNT)]
    slots = {(40 + i) % SLOTS: slot_of(i) for i in range(SLOTS)}
    prefixes = [entry_of(bytes([2, 0, 1, i % 33]) + bytes([10, 85, i, 255])[: (i % 33 + 7) // 8]) for i in range(PLACES)]
    further = {"requests": requests_block(range(PLACES)), "index": index_blocks(prefixes)}
    return image(block0(words, released=LAST - 1, issued=2, secured=77, first=40, held=64, **fields), slots, **further)


def live(slots, **fields):
    return image(block0(held=len(slots), **fields), slots)


def bad_slot(block):
    return live({0: block})


def noted(marks, **fields):
    return image(block0(marks=marks, **fields))


def earlier(data, size, extended=False):
    """An image as a release before stored it, at its size; and with the blocks that are put behind it."""
    data = bytearray(data[:size])
    if extended:
        data += b"\xaa" * (SIZE - size)
        assert extend(data, size) == 0
    return bytes(data)


RELEASED = State().block()
ALL_ASKED = [OPEN] * COUNT
ALL_USED = [word(16 + i, 3) for i in range(COUNT)]
NONE, TEN = "00" * 8, "010800000a000000"
EARLIEST, EARLIER = EARLIER_SIZES
UNSEALED = bytes(BLOCK)
ZERO_SUMS = next(b for b in (block0(secured=n) for n in range(1, 1 << 20)) if b[508:510] == b"\0\0")
BARE = 8 + len(mapping(16))
CASES = [
    ("new", image(RELEASED), counts(0, 0, 0, 0, 0, 0)),
    ("layout_by_bytes", image(BYTES, {63: MAPPING_BYTES, 0: ADDRESS_BYTES}, requests=ID_BYTES, index=ENTRY_BYTES + LAST_ENTRY_BYTES), counts(5, 6, 9, 2, 1, 4)),
    ("nothing_held", image(block0(released=9, issued=9, secured=4)), counts(9, 9, 4, 0, 0, 0)),
    ("full_ring_wraps", full_ring(), counts(LAST - 1, 2, 77, 64, 61, COUNT)),
    ("dead_slots_damaged", image(block0(GIVEN16, held=1), {0: mapping_slot()}, bytes(range(256)) * 2), counts(0, 0, 0, 1, 1, 1)),
    ("code_6_counted", image(block0([word(30, 6), 0, word(31, 3), word(30, 1)])), counts(0, 0, 0, 0, 0, 3)),
    ("withdrawn_codes_counted", image(block0([word(30, 8), word(31, 9), word(30, 4), word(31, 3)])), counts(0, 0, 0, 0, 0, 4)),
    ("label_below_16_held", live({0: slot_block(mapping(3), MAPPING, 3)}), counts(0, 0, 0, 1, 1, 0)),
    ("empty", b"", refused(12, 0)),
    ("byte_short", PAPER[:-1], refused(12, 0)),
    ("byte_long", PAPER + b"\0", refused(12, 0)),
    ("twice_as_long", PAPER + PAPER, refused(12, 0)),
    ("size_before_block_0", damaged(PAPER[:-1], 100), refused(12, 0)),
    ("check_of_block_0", damaged(PAPER, 100), refused(10, 0)),
    ("check_before_fields", damaged(PAPER, 3), refused(10, 0)),
    ("check_of_block_3", damaged(live(THREE), 3 * BLOCK + 60), refused(10, 3)),
    ("check_bytes_swapped", PAPER[:508] + PAPER[510:512] + PAPER[508:510] + PAPER[512:], refused(10, 0)),
    ("check_65535_for_0", image(ZERO_SUMS[:508] + b"\xff\xff" + ZERO_SUMS[510:]), refused(10, 0)),
    ("check_0", image(ZERO_SUMS), report(image(ZERO_SUMS))),
    ("version_1", ONE, refused(11, 0)),
    ("version_1_kept_0", image(State(layout=1).block()), refused(11, 0)),
    ("version_3", image(block0(version=3)), refused(11, 0)),
    ("version_2_laid_out_as_1", image(block0(layout=1, version=2)), refused(11, 0)),
    ("byte_20_set", image(block0(zero=256)), refused(11, 0)),
    ("byte_21_set", image(block0(zero=1)), refused(11, 0)),
    ("no_timeout", image(block0(timeout=0)), counts(0, 0, 0, 0, 0, 0)),
    ("longest_timeout", image(block0(timeout=LAST)), counts(0, 0, 0, 0, 0, 0)),
    ("last_word", image(block0([0] * (COUNT - 1) + GIVEN16)), counts(0, 0, 0, 0, 0, 1)),
    ("first_64", image(block0(first=64)), refused(11, 0)),
    ("held_65", image(block0(held=65), {k: mapping_slot() for k in range(SLOTS)}), refused(11, 0)),
    ("kept_2", image(block0(kept=2)), refused(11, 0)),
    ("byte_23_is_2", noted(2), counts(0, 0, 0, 0, 0, 0)),
    ("byte_23_is_4", noted(4), counts(0, 0, 0, 0, 0, 0)),
    ("byte_23_is_1", noted(1), refused(11, 0)),
    ("byte_23_is_7", noted(7), refused(11, 0)),
    ("byte_23_is_8", noted(8), refused(11, 0)),
    ("byte_23_is_130", noted(130), refused(11, 0)),
    ("issued_past_held", live(THREE, released=5, issued=9), refused(11, 0)),
    ("issued_all_held", live(THREE, released=LAST, issued=3), counts(LAST, 3, 0, 3, 0, 0)),
    ("issued_0_released_not", image(block0(released=5, issued=0)), refused(11, 0)),
    ("word_of_code_0", image(block0([17])), refused(11, 0)),
    ("word_of_code_7_with_a_label", image(block0([word(17, 7)])), refused(11, 0)),
    ("word_of_code_10", image(block0([word(17, 10)])), refused(11, 0)),
    ("word_of_code_8_without_label", image(block0([word(0, 8)])), refused(11, 0)),
    ("word_of_label_15", image(block0([word(15, 3)])), refused(11, 0)),
    ("label_twice_on_a_side", image(block0([word(17, 3), 0, word(17, 6)])), refused(11, 0)),
    ("label_given_and_withdrawn", image(block0([word(17, 1), 0, word(17, 8)])), refused(11, 0)),
    ("label_at_8_and_9", image(block0([word(17, 9), 0, word(17, 8)])), refused(11, 0)),
    ("kept_0_last_byte_set", image(altered(RELEASED, 507, b"\1")), refused(11, 0)),
    ("kept_0_secured_set", image(State(secured=1).block()), refused(11, 0)),
    ("kept_0_stopped", image(State(marks=2).block()), refused(11, 0)),
    ("length_7", bad_slot(altered(mapping_slot(), 0, field(7, 2))), refused(11, 1)),
    ("length_481", bad_slot(slot_block(padded(ADDRESS, 469), ADDRESS, OF_NO_LABEL)), refused(11, 1)),
    ("kind_10", bad_slot(mapping_slot(kind=10)), refused(11, 1)),
    ("byte_3", bad_slot(altered(mapping_slot(), 3, b"\1")), refused(11, 1)),
    ("another_kind", bad_slot(mapping_slot(kind=WITHDRAW)), refused(11, 1)),
    ("another_label", bad_slot(mapping_slot(label=17)), refused(11, 1)),
    ("address_with_label", bad_slot(slot_block(padded(ADDRESS), ADDRESS, 16)), refused(11, 1)),
    ("request_with_label", bad_slot(slot_block(request(label_tlv(16)), REQUEST, 16)), refused(11, 1)),
    ("request_held", live({0: slot_block(request(label_tlv(16)), REQUEST, OF_NO_LABEL)}), counts(0, 0, 0, 1, 1, 0)),
    ("request_as_abort", bad_slot(slot_block(request(), ABORT, OF_NO_LABEL)), refused(11, 1)),
    ("abort_without_id", bad_slot(slot_block(abort(), ABORT, OF_NO_LABEL)), refused(11, 1)),
    ("no_resources_as_available", bad_slot(slot_block(notification(NO_RESOURCES), RESOURCES, OF_NO_LABEL)), refused(11, 1)),
    ("message_malformed", bad_slot(slot_block(mapping(1048576), MAPPING, 1048576)), refused(11, 1)),
    ("message_with_ft_tlv", bad_slot(slot_block(message(TYPE[ADDRESS], ID, ack_tlv(0)), ADDRESS, OF_NO_LABEL)), refused(11, 1)),
    ("padding_set", bad_slot(altered(mapping_slot(), BARE + 400, b"\1")), refused(11, 1)),
    ("ring_order", image(block0(first=62, held=4), {62: mapping_slot(), 63: mapping_slot(label=17)}), refused(11, 64)),
    ("block_0_check_before_slots", damaged(damaged(live(THREE), 100), BLOCK + 60), refused(10, 0)),
    ("block_0_fields_before_slots", damaged(live(THREE, version=1), BLOCK + 60), refused(11, 0)),
    ("slot_check_before_fields", live({0: damaged(mapping_slot(label=17), 4)}), refused(10, 1)),
    ("open_requests", asking([OPEN, word(30, 1), OPEN, word(30, 6), OPEN], [7, 8, 0, LAST, LAST]), counts(0, 0, 0, 0, 0, 5)),
    ("all_words_open", asking(ALL_ASKED, range(COUNT)), counts(0, 0, 0, 0, 0, COUNT)),
    ("ids_that_do_not_count", asking([OPEN, 0, word(30, 3)], [7] * COUNT), counts(0, 0, 0, 0, 0, 2)),
    ("id_of_no_word", asking(ALL_ASKED, [*range(COUNT), 0]), counts(0, 0, 0, 0, 0, COUNT)),
    ("id_twice", asking([OPEN, 0, OPEN], [7, 0, 7]), refused(11, 65)),
    ("id_0_twice", asking([OPEN, 0, OPEN], []), refused(11, 65)),
    ("last_id_twice", asking(ALL_ASKED, [*range(COUNT - 1), 0]), refused(11, 65)),
    ("byte_480_of_block_65", with_byte(block0(), 65, 480), refused(11, 65)),
    ("byte_507_of_block_65", with_byte(block0(), 65, 507), refused(11, 65)),
    ("byte_507_of_block_65_kept_0", with_byte(RELEASED, 65, 507), refused(11, 65)),
    ("ids_kept_0", image(RELEASED, requests=requests_block([7] * COUNT)), counts(0, 0, 0, 0, 0, 0)),
    ("check_of_block_65", damaged(live(THREE), BLOCK * REQUESTS + 60), refused(10, 65)),
    ("check_of_block_65_kept_0", image(RELEASED, requests=UNSEALED), refused(10, 65)),
    ("block_65_check_before_fields", damaged(asking([OPEN, OPEN], []), BLOCK * INDEX - 1), refused(10, 65)),
    ("slots_before_block_65", image(block0(held=1), {0: mapping_slot(label=17)}, requests=UNSEALED), refused(11, 1)),
    ("length_0_and_32", indexed(ALL_USED, ["01000000" + "00000000", "01200000" + "ffffffff"]), counts(0, 0, 0, 0, 0, COUNT)),
    ("one_prefix_of_all", indexed(ALL_USED, [TEN] * COUNT), counts(0, 0, 0, 0, 0, COUNT)),
    ("entries_that_do_not_count", indexed([0, OPEN, word(16, 9)], ["ff" * 8, "02" * 8, TEN]), counts(0, 0, 0, 0, 0, 2)),
    ("entry_of_no_word", with_entry(COUNT, "ff" * 8), counts(0, 0, 0, 0, 0, COUNT)),
    ("entries_kept_0", image(RELEASED, index=index_blocks([b"\xff" * 8] * PLACES)), counts(0, 0, 0, 0, 0, 0)),
    ("entry_of_code_6_looked_at", indexed([word(16, 6)], ["ff" * 8]), refused(11, 66)),
    ("entry_of_code_9_looked_at", indexed([0] * 60 + [word(16, 9)], [NONE] * 60 + ["ff" * 8]), refused(11, 67)),
    ("entry_begins_with_2", with_entry(0, "0218000000000000"), refused(11, 66)),
    ("entry_begins_with_0", with_entry(59, "0018000000000000"), refused(11, 66)),
    ("entry_of_length_33", with_entry(60, "0121000000000000"), refused(11, 67)),
    ("entry_of_length_255", with_entry(118, "01ff000000000000"), refused(11, 67)),
    ("entry_third_byte", with_entry(3, "0118010000000000"), refused(11, 66)),
    ("entry_fourth_byte", with_entry(63, "0118000100000000"), refused(11, 67)),
    ("bit_past_the_length", with_entry(0, "0117000000000100"), refused(11, 66)),
    ("bit_past_length_0", with_entry(60, "0100000080000000"), refused(11, 67)),
    ("last_bit_past_length_31", with_entry(118, "011f000000000001"), refused(11, 67)),
    ("byte_480_of_block_66", with_byte(block0(), 66, 480), refused(11, 66)),
    ("byte_507_of_block_66_kept_0", with_byte(RELEASED, 66, 507), refused(11, 66)),
    ("byte_480_of_block_67_kept_0", with_byte(RELEASED, 67, 480), refused(11, 67)),
    ("byte_507_of_block_67", with_byte(block0(), 67, 507), refused(11, 67)),
    ("check_of_block_66", damaged(live(THREE), BLOCK * 66 + 60), refused(10, 66)),
    ("check_of_block_67", damaged(live(THREE), BLOCK * 67 + 60), refused(10, 67)),
    ("check_of_block_66_kept_0", image(RELEASED, index=UNSEALED + sealed(b"")), refused(10, 66)),
    ("check_of_block_67_kept_0", image(RELEASED, index=sealed(b"") + UNSEALED), refused(10, 67)),
    ("block_66_check_before_fields", damaged(with_entry(0, "ff" * 8), BLOCK * 67 - 1), refused(10, 66)),
    ("block_65_before_66", image(block0([OPEN, OPEN]), index=UNSEALED * 2), refused(11, 65)),
    ("block_66_before_67", damaged(with_entry(59, "ff" * 8), SIZE - 1), refused(11, 66)),
    ("first_size", earlier(ONE, EARLIEST), refused(12, 0)),
    ("first_size_extended", earlier(ONE, EARLIEST, True), refused(11, 0)),
    ("size_before_the_index", earlier(PAPER, EARLIER), refused(12, 0)),
    ("size_before_the_index_extended", earlier(full_ring(), EARLIER, True), counts(LAST - 1, 2, 77, 64, 61, COUNT)),
]


def main():
    paper, folder = counts(0, 0, 0, 1, 1, 1), "print_image_cases/data"
    for name, data, expected in [("paper", PAPER, paper), *CASES]:
        assert report(data) == expected, (name, report(data))
    files = {"print_image/stdin": PAPER, "print_image/stdout": lines(paper)}
    files |= {"convert_image/args": lines(["forward", "moved.img"]), "convert_image/stdin": PAPER, "convert_image/stdout": lines(refused(11, 0))}
    files |= {f"{folder}/{name}": data for name, data, _ in CASES}
    files["print_image_cases/args"] = lines(name for name, _, _ in CASES)
    files["print_image_cases/stdout"] = b"".join(lines([name, *expected]) for name, _, expected in CASES)
    settle(files, folder)


if __name__ == "__main__":
    main()
