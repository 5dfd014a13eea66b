#!/usr/bin/env python3
"""The names of definitions in specs/ that more than one module defines: a reader should meet one meaning a name.

    tools/names.py            lists them with the modules that define them
    tools/names.py --check    fails where there is one
"""
import collections
import sys

sys.dont_write_bytecode = True
from sources import crate_names, definitions, paths  # noqa: E402

KINDS = ("abbrev", "unfoldable", "record", "data")


def defined_twice():
    found = collections.defaultdict(list)
    for crate in crate_names():
        for path in (path for path in paths(crate) if path.suffix == ".antt" and "specs" in path.parts):
            for name in {made.name for made in definitions(path.read_text()) if made.kind in KINDS}:
                found[name].append(f"{crate}/{path.stem}")
    return {name: " ".join(modules) for name, modules in sorted(found.items()) if len(modules) > 1}


def main(check):
    found = defined_twice()
    for name, modules in found.items():
        print(f"{name}: {modules}")
    return 1 if check and found else 0


if __name__ == "__main__":
    sys.exit(main(sys.argv[1:] == ["--check"]))
