#!/usr/bin/env python3
"""Looks that no wrong answer of a must-fail edit is refused only because of another one in the same edit.

A function's answers rest on its own code, on contracts, definitions and constants, and on laws. So a wrong answer in the code of one
function leaves every other function as it was; one in a definition, a contract or a constant may be what another is refused for. Each
of those is tried alone here, and must not have refused the names of its neighbours.

    tools/apart.py [CRATE..]     the edits of these crates, or of all; a check of the crate for each; the crates must be proved

The gate does not run it: it is for whoever regroups edits.
"""
import sys

sys.dont_write_bytecode = True
from refusals import HEADING, refused_by_itself  # noqa: E402
from sources import ROOT  # noqa: E402
from tries import OWN_PROOFS, edited, prove, try_all  # noqa: E402

# a line of a source that others rest on: a clause, an import of a definition, a constant
SHARED = ("requires", "ensures", "ghost ", "const ", "#[tactic")


class Wrong:
    def __init__(self, label, name):
        self.label, self.name, self.pairs, self.shared = label, name, [], False


def wrong_answers(edit):
    """The wrong answers of an edit, each with the changes that make it."""
    found, path, old = [], None, ""
    for line in edit.read_text().splitlines():
        word, _, rest = line.partition(":")
        rest = rest.removeprefix(" ")
        heading = HEADING.match(line)
        if heading:
            found.append(Wrong(heading[1], heading[2]))
        elif word == "file":
            path = edit.parent.parent / rest.strip()
        elif word == "old":
            old = rest
            code = path.relative_to(edit.parent.parent).parts[0] == "src"
            # a function's own proof, whose names follow its code, is as much its own as the code
            found[-1].shared |= path.name not in OWN_PROOFS and (not code or any(word in old for word in SHARED))
        elif word == "new":
            found[-1].pairs.append((path, old, rest))
    return found


def main(wanted):
    tries, of, said = [], [], []
    for edit in sorted(ROOT.glob("crates/*/must-fail/*.edit")):
        crate = edit.parent.parent.name
        answers = wrong_answers(edit) if not wanted or crate in wanted else []
        for wrong in (answer for answer in answers if answer.shared and len(answers) > 1):
            texts = edited(wrong.pairs)
            if texts is None:
                said.append(f"{crate}/{edit.stem} {wrong.label}: cannot be tried alone, since a text that it changes is not once in its file")
                continue
            tries.append((crate, texts))
            of.append((f"{crate}/{edit.stem} {wrong.label}", wrong, answers))
    print(*said, sep="\n", end="\n" if said else "")
    prove(sorted({crate for crate, _ in tries}) if wanted else [])

    def told(number, status, log):
        name, wrong, answers = of[number]
        refused = refused_by_itself(log)
        clashes = [other.label for other in answers if other is not wrong and other.name in refused]
        said.extend(clashes if status else [name])
        print(f"{name}: {'refuses also ' + ', '.join(clashes) if clashes else 'apart' if status else 'is not refused alone'}", flush=True)

    try_all(tries, told)
    print(f"{len(said)} wrong answers may be refused for another's sake, or not at all")
    return 1 if said else 0


if __name__ == "__main__":
    sys.exit(main(sys.argv[1:]))
