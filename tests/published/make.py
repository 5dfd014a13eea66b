#!/usr/bin/env python3
"""Wireshark's reading of our Inits in RFC 3479's form, held to what we mean by them.

    tests/published/make.py            has dissect.sh write dissection.txt anew, which needs tshark, and looks at it
    tests/published/make.py --check    fails where a message of inits.txt is not of that form, or dissection.txt reads it otherwise

That inits.txt is what library and model write is tested in host/trials/tests/forms.rs.
"""
import pathlib
import re
import subprocess
import sys

HERE = pathlib.Path(__file__).resolve().parent
HEAD, PARAMETERS = 8, 18
# the Init of 42 bytes, and 50 with FT ACK
LENGTHS = {0: 42, 1: 50}


def session(reconnect, milliseconds):
    """FT Session byte by byte: U, type, length 12; R and S; zeros; the timeout; recovery time 0."""
    return bytes([0x85, 0x03, 0, 12]) + (reconnect << 15 | 8).to_bytes(2, "big") + bytes(2) + milliseconds.to_bytes(4, "big") + bytes(4)


def meant(reconnect, milliseconds):
    """The lines that a dissector which knows RFC 3479 has for it, in this order."""
    preserved = "has preserved" if reconnect else "has not preserved"
    return [
        f"Message Length: {LENGTHS[reconnect] - 4}",
        "Session KeepAlive Time: 30",
        "Session Max PDU Length: 4096",
        "Session Receiver LSR Identifier: 10.255.0.1",
        "TLV Type: FT Session TLV (0x503)",
        "TLV Length: 12",
        f"Flags: 0x{reconnect << 15 | 8:04x} ",
        f"{reconnect}... .... .... .... = R bit: LSR {preserved} state",
        ".000 0000 0000 .... = Reserved: 0x000",
        "1... = S bit: FT Protection TLV supported",
        ".0.. = A bit",
        "..0. = C bit: Check-Pointing procedures not in use",
        "...0 = L bit",
        "Reserved: 0x0000",
        f"Reconnect Timeout: {milliseconds}\n",
        "Recovery Time: 0\n",
    ] + (["TLV Type: FT Ack TLV (0x504)", "FT ACK Sequence Number: 0x00000007\n"] if reconnect else [])


def faults():
    rows = [row.split() for row in (HERE / "inits.txt").read_text(encoding="ascii").splitlines() if not row.startswith("#")]
    version, *readings = (HERE / "dissection.txt").read_text(encoding="utf-8").split("Label Distribution Protocol\n")
    if not re.match(r"TShark \(Wireshark\) \d", version):
        yield "dissection.txt does not begin with tshark's version"
    if len(rows) != len(readings):
        yield f"{len(rows)} Inits, {len(readings)} readings"
    for (name, reconnect, milliseconds, text), reading in zip(rows, readings):
        reconnect, milliseconds, message = int(reconnect), int(milliseconds), bytes.fromhex(text)
        at = HEAD + PARAMETERS
        if len(message) != LENGTHS[reconnect] or message[at : at + 16] != session(reconnect, milliseconds):
            yield f"{name}: the bytes are not those of the published form"
        place = 0
        for line in meant(reconnect, milliseconds):
            found = (reading + "\n").find(line, place)
            if found < 0:
                yield f"{name}: tshark does not read {line.strip()!r}, or in another order"
            place = max(found, place)
        if re.search("malformed|should be|expert", reading, re.IGNORECASE):
            yield f"{name}: tshark complains"
        if ("FT Ack TLV" in reading) != bool(reconnect):
            yield f"{name}: FT ACK"


if sys.argv[1:] != ["--check"]:
    subprocess.run([HERE / "dissect.sh"], check=True)
wrong = list(faults())
if wrong:
    sys.exit("tests/published/make.py: " + "; ".join(wrong))
