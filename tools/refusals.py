#!/usr/bin/env python3
"""Looks that every wrong answer of the must-fail edits is refused by itself, and for a fact.

`rt ci` asks only that an edit as a whole is refused. An edit here may try several wrong answers at once, each under a heading

    # LABEL (NAME): what is wrong

where NAME is the function or the law that the prover has to refuse: not because something that it rests on was refused, and
not because its proof file no longer fits the code. So each edit is tried once more, over what `rt check` keeps, and all that the
prover says is read. It is kept in target/refusals/CRATE/EDIT.log, and an edit is tried again only where it, its crate or what
that stands on has changed; the folder REFUSALS_KEPT stands for target/refusals where it is set.

    tools/refusals.py                 every edit of every crate
    tools/refusals.py CRATE[/EDIT]..  some of them, with what was refused by itself
"""
import hashlib
import os
import pathlib
import re
import sys

sys.dont_write_bytecode = True
from sources import ROOT, changes  # noqa: E402
from tries import edited, prove, stands_on, try_all  # noqa: E402

KEPT = pathlib.Path(os.environ.get("REFUSALS_KEPT") or ROOT / "target" / "refusals")
HEADING = re.compile(r"# (\w+) \(([\w'-]+)\): (\S.*)")
VERDICT = re.compile(r"fn (\S+): (.*)")
ERROR = re.compile(r"(\S+?):\d+:\d+: error: `([^`]+)`: (.*)")
# a function's own proof, in the folder of its name
OF_FUNCTION = ("Proof.antt", "Answers.antt", "Invariants.antt")
# a proof file that names what the edited code no longer has: the fact itself was never looked at; a field that is a number is a part of a fact
LOST = re.compile(r"that can be named from here|has no field `\D")
UNFIT = re.compile(LOST.pattern + r"|not in scope|is checked against")
RESTS_ON_ANOTHER = ("was not admitted", "was rejected")


def headings(edit):
    """The wrong answers of an edit, each with the name that must be refused; a pair before the first heading is a fault."""
    found = []
    for line in edit.read_text().splitlines():
        heading = HEADING.match(line)
        if heading:
            found.append(heading.groups()[:2])
        elif line.startswith("old:") and not found:
            return []
    return found


def refused_by_itself(log):
    """The functions and laws in which the prover found a false fact, apart from those that only rest on others."""
    names = set()
    for line in log.splitlines():
        error = ERROR.match(line)
        if error and not UNFIT.search(error[3]) and not any(words in error[3] for words in RESTS_ON_ANOTHER):
            path = error[1].removeprefix("./").split("/")
            # right in proofs/ such a file is one of laws
            names.add(path[-2] if path[-1] in OF_FUNCTION and len(path) > 2 else error[2])
        verdict = VERDICT.match(line)
        if verdict and verdict[2].startswith("no proof") and "did not prove" in verdict[2]:
            names.add(verdict[1].split("::")[-1])
    return names


class Edit:
    """An edit, and what its check said; `log` is None where it is to be tried yet."""

    def __init__(self, path, crate_sum):
        self.path, self.crate = path, path.parent.parent.name
        self.name = f"{self.crate}/{path.stem}"
        self.sum = hashlib.sha256(crate_sum.encode() + path.read_bytes()).hexdigest()
        self.texts = edited(changes(path))
        self.kept = KEPT / self.crate / f"{path.stem}.log"
        self.status, self.log = None, None
        head, _, text = self.kept.read_text().partition("\n") if self.kept.is_file() else ("", "", "")
        if head.split()[1:] == [self.sum]:
            self.status, self.log = int(head.split()[0]), text

    def told(self, status, log):
        """Takes what a check said; a verdict is kept, and so is that the prover came to a limit of its own."""
        self.status, self.log = status, log
        if status in (0, 1, 3):
            self.kept.parent.mkdir(parents=True, exist_ok=True)
            self.kept.write_text(f"{status} {self.sum}\n{log}")

    def faults(self):
        """What is wrong with the edit's refusals, and what was refused by itself."""
        if self.log is None:
            return [f"{self.name}: a text that it changes is not once in its file, so it was not tried"], set()
        if self.status == 0:
            return [f"{self.name}: the crate is still proved with it"], set()
        if not re.search(r"^(logic=not-proved|rattle: no verdict)", self.log, re.M):
            return [f"{self.name}: the prover came to no verdict, with status {self.status}: {' '.join(self.log.splitlines()[:3])[:300]}"], set()
        refused, wrong = refused_by_itself(self.log), headings(self.path)
        said = [] if wrong else [f"{self.name}: a change without a heading '# LABEL (NAME): ..'"]
        if LOST.search(self.log):
            said.append(f"{self.name}: a proof file no longer fits the code")
        said += [f"{self.crate}/{label}: {name} was not refused by itself" for label, name in wrong if name not in refused]
        return said, refused


def tried(edits):
    """Tries the edits of which no check is kept, the crates with most of them first, and says each."""
    left = [edit for edit in edits if edit.log is None and edit.texts is not None]
    if not left:
        return
    crates = sorted({edit.crate for edit in left})
    prove([] if len(crates) > 4 else crates)
    print(f"{len(left)} of {len(edits)} edits to try; the others are as they were tried before", flush=True)

    def told(number, status, log):
        left[number].told(status, log)
        print(f"tried {left[number].name}", flush=True)

    try_all([(edit.crate, edit.texts) for edit in left], told)


def main(wanted):
    paths = sorted(ROOT.glob("crates/*/must-fail/*.edit"))
    paths = [path for path in paths if not wanted or path.parent.parent.name in wanted or f"{path.parent.parent.name}/{path.stem}" in wanted]
    sums = {crate: stands_on(crate) for crate in {path.parent.parent.name for path in paths}}
    edits = [Edit(path, sums[path.parent.parent.name]) for path in paths]
    tried(edits)
    labels, said = [(edit.crate, label) for edit in edits for label, _ in headings(edit.path)], []
    for edit in edits:
        of_edit, refused = edit.faults()
        said += of_edit
        if wanted:
            print(f"{edit.name}: by itself: {' '.join(sorted(refused)) or 'nothing'}")
    said += [f"{crate}/{label}: two wrong answers of one name" for crate, label in sorted(set(labels)) if labels.count((crate, label)) > 1]
    for line in said:
        print(line)
    print(f"{len(labels)} wrong answers tried, {len(said)} faults")
    return 1 if said else 0


if __name__ == "__main__":
    sys.exit(main(sys.argv[1:]))
