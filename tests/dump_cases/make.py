#!/usr/bin/env python3
"""The streams and the expected output of ldp_dump_cases, from cases.txt.

    tests/dump_cases/make.py            writes crates/ldp_dump_cases/{args,data,stdout}
    tests/dump_cases/make.py --check    fails where a stored file is another
"""
import pathlib
import sys

sys.dont_write_bytecode = True
HERE = pathlib.Path(__file__).resolve().parent
sys.path.append(str(HERE.parent))
from stored import settle  # noqa: E402

CRATE = "ldp_dump_cases"


def made():
    """The crate's files: a stream each, its names as arguments, and for each the name and then its lines."""
    streams = {}
    for row in (HERE / "cases.txt").read_text(encoding="ascii").splitlines():
        word, _, rest = row.split("#")[0].strip().partition(" ")
        if word == "stream":
            name = rest
            streams[name] = [b"", name + "\n"]
        elif word == "<":
            streams[name][0] += bytes.fromhex(rest)
        elif word == ">":
            streams[name][1] += rest + "\n"
        elif word:
            sys.exit(f"cases.txt: {row}")
    files = {f"{CRATE}/data/{name}": content for name, (content, _) in streams.items()}
    files[f"{CRATE}/args"] = "".join(name + "\n" for name in streams).encode("ascii")
    files[f"{CRATE}/stdout"] = "".join(lines for _, lines in streams.values()).encode("ascii")
    return files


settle(made(), f"{CRATE}/data")
