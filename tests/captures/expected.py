#!/usr/bin/env python3
"""The input and the expected output of ldp_dump, from captured PDUs and Wireshark's reading of them.

    tests/captures/expected.py            writes crates/ldp_dump/{stdin,stdout}
    tests/captures/expected.py --check    fails where a stored file is another
"""
import json
import pathlib
import sys

sys.dont_write_bytecode = True
HERE = pathlib.Path(__file__).resolve().parent
sys.path.append(str(HERE.parent))
from stored import settle  # noqa: E402

CAPTURES = ("basic", "three-routers", "dual-stack", "typed-wildcard-requests")


def number(value):
    return int(value, 16)


def session(value):
    """FT Session by its length: the draft's counts seconds, RFC 3479's milliseconds."""
    name, timeout = ("ft-session", value[4:]) if len(value) == 8 else ("ft-session-ms", value[8:16])
    return f"{name} {number(value[:4]) >> 15} {number(timeout)}"


# The listed TLVs in the order of a line: type, and the text of a value in hex.
TLVS = (
    (0x0100, lambda value: f"fec {value or '-'}"),
    (0x0200, lambda value: f"label {number(value)}"),
    (0x0300, lambda value: f"status 0x{value[:8]}"),
    (0x0500, lambda value: f"params {value}"),
    (0x0503, session),
    (0x0203, lambda value: f"ft-protection {number(value)}"),
    (0x0504, lambda value: f"ft-ack {number(value)}"),
    (0x0600, lambda value: f"request-id {number(value)}"),
)


def line(pdu_number, message_number, message):
    values = {tlv["type"]: tlv["value"] for tlv in message["tlvs"]}
    fields = [str(pdu_number), str(message_number), f"0x{message['type']:04x}", str(message["id"])]
    fields += [text(values[number_of_type]) for number_of_type, text in TLVS if number_of_type in values]
    return " ".join(fields) + "\n"


def made():
    pdus = []
    for capture in CAPTURES:
        pdus += [json.loads(row) for row in (HERE / f"{capture}.jsonl").read_text(encoding="ascii").splitlines()]
    stream = b"".join(bytes.fromhex(pdu["hex"]) for pdu in pdus)
    lines = "".join(line(n, k, message) for n, pdu in enumerate(pdus) for k, message in enumerate(pdu["messages"]))
    return {"ldp_dump/stdin": stream, "ldp_dump/stdout": lines.encode("ascii")}


settle(made())
