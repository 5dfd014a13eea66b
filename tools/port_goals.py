#!/usr/bin/env python3
"""Brings a crate's Proof.antt files to the names that today's Rattle gives goals, loops and steps of a function.

    tools/port_goals.py CRATE..     the crates below must be proved
"""
import json
import pathlib
import re
import subprocess
import sys
import tempfile

ROOT = pathlib.Path(__file__).resolve().parent.parent
WORD = r"[^\s(){}.;:,@\"«»\[\]\\]+"


def alike(name):
    return re.sub("[-_]", "", name).lower()


class Names:
    """What a function's loops, goals, places and steps are called: of each the older name and today's."""

    def __init__(self, of):
        self.loops = {alike(old): new for (old, new), _ in of["loops"]}
        self.count = len(of["needs"])
        self.goals = {alike(new): new for _, new in of["needs"]} | {alike(old): new for old, new in of["needs"]}
        self.places = {alike(place[0]): new for place, new in zip(of["places"], of["places_by_name"])}
        self.steps = {alike(place[2][0]): place[2][1] for place in of["places"] if place[2][0]}
        for old, new in self.loops.items():
            self.steps.setdefault(old, new)
            self.steps.setdefault(old + "test", new + "-test")
        # what an arm of a `match` has under names of its own: (arm, field, step, path behind the step)
        self.arms = [(arm[0], field, alike(step), way) for arm in of["arms"] if arm for field, step, way in sorted(arm[2], key=lambda one: -len(one[2]))]

    def in_arm(self, words):
        """A path behind its root, where an arm has what it leads to."""
        fit = [
            [arm, field, *words[1 + len(way) :]]
            for arm, field, step, way in self.arms
            if alike(words[0]) == step and words[1 : 1 + len(way)] == way
        ]
        return min(fit, key=len, default=None)

    def step(self, word, first):
        """A part of a path; a local that shares a step's name stands behind the step, not first."""
        new = self.steps.get(alike(word)) or self.steps.get(alike(word.removesuffix("_lem"))) or word
        return word if not first and re.fullmatch(re.escape(word) + r"-[0-9]+", new) else new

    def loop(self, word):
        return self.loops.get(alike(word), word)

    def tie(self, word):
        for head in ("invariant-", "decreases-"):
            if word.startswith(head):
                return head + self.loop(word[len(head):])
        if word.startswith("Need-"):
            goal = alike(word[5:])
            return "Need-" + (self.goals.get(goal) or self.goals.get(re.sub("^(overflow|nonzero|slice|offset)", "", goal)) or word[5:])
        return self.places.get(alike(word), word)


def path(names, whole):
    words = whole.split(".")
    if words[0] == "tie":
        return ".".join(["tie", *map(names.tie, words[1:])])
    if len(words) == 1 or words[0][:1].isupper():
        return whole
    root, rest = words[0], words[1:]
    outer = 0
    while outer < len(rest) and rest[outer] == "before":
        outer += 1
    if outer == len(rest):
        return whole
    rest = rest[outer:]
    arm = names.in_arm(rest) if outer or root == "c" else None
    if arm:
        return ".".join([root, *arm])
    return ".".join([root, *(names.step(word, i == 0 and (outer > 0 or root == "c")) for i, word in enumerate(rest))])


LET = re.compile(r"\s*let (\w+) = ((?:\w+)(?:\.before)+) in$")


def flat(text):
    """Names of outer places, each a `let` of its own, are `c`, which has all that an outer place has; one that is used whole stays."""
    lines, names, whole = [], {}, text.split("\n")
    for i, line in enumerate(whole):
        if not line.startswith(" "):
            names = {}
        bound = LET.match(line)
        if bound:
            # the declaration's rest
            end = next((j for j in range(i + 1, len(whole)) if not whole[j].startswith(" ")), len(whole))
            rest = "\n".join(whole[i + 1 : end])
            root = bound[2].split(".")[0]
            names[bound[1]] = names.get(root, root)
            if not re.search(r"(?<![\w.'-])" + bound[1] + r"(?![\w'.-])", rest) and not re.search(r"(?<![\w.'-])" + bound[1] + r"(\.before)+(?![\w'.-])", rest):
                continue
        if names and not bound:
            line = re.sub(r"(?<![\w.'-])(" + "|".join(names) + r")((?:\.before)*)\.(?=\w)(?!before)", lambda it: names[it[1]] + it[2] + ".", line)
        lines.append(line)
    return "\n".join(lines)


ANSWERS = re.compile(r"(tie\.spec\b)(.*?)( in\n\s*tie\.close answers)", re.S)


def arguments(text):
    """The arguments of a call, each with the blanks before it."""
    found, depth, one = [], 0, ""
    for sign in text:
        if sign.isspace() and depth == 0 and one.strip():
            found.append(one)
            one = ""
        depth += (sign in "([{") - (sign in ")]}")
        one += sign
    return [*found, one] if one.strip() else found


def fitted(names, text):
    """A call of `tie.spec` without answers for what is no goal today: the bytes of a literal, which the search found."""
    call = ANSWERS.search(text)
    if not call:
        return text
    given = arguments(call[2])
    heads = [one for one in given if one.strip().startswith(("invariant-", "decreases-"))]
    more = len(given) - len(heads) - names.count
    for one in [one for one in given if re.fullmatch(r"\(λ c( κs)?\. search rules\)", one.strip())][: max(more, 0)]:
        given.pop(next(i for i, other in enumerate(given) if other is one))
    return text[: call.start(2)] + "".join(given) + text[call.end(2) :]


def with_names(text, module, name):
    """The text with an import of the name."""
    line = re.search(r"(?m)^use " + re.escape(module) + r"\.\{(.*)\}$", text)
    if line and name in line[1].split(", "):
        return text
    if line:
        return text.replace(line[0], f"use {module}.{{{line[1]}, {name}}}")
    at = re.search(r"(?m)^use ", text).start()
    return f"{text[:at]}use {module}.{{{name}}}\n{text[at:]}"


def turned(names, function, text):
    lines = []
    for line in flat(text).split("\n"):
        if not line.startswith(("use ", "--")):
            line = re.sub(WORD + r"(?:\." + WORD + ")+", lambda it: path(names, it[0]), line)
            line = re.sub(r"(?<![\w.-])(invariant|decreases)-(" + WORD + ")", lambda it: f"{it[1]}-{names.loop(it[2])}", line)
        elif ".Lts.{" in line or ".Tie.{" in line:
            line = re.sub(r"\{.*\}", lambda it: re.sub(r"[\w-]+", lambda one: names.tie(one[0]), it[0]), line)
        lines.append(line)
    made = "\n".join(lines)
    # `if !x` says of x itself what it found
    made = re.sub(r"not-(?:true|false) (?:[^\s()]+|\([^()]*\)) (c\.if-not)(-[^\s()]*)", r"\1\0\2", made)
    if re.search(r"(?<![\w.'-])c\.if-not-[^\s()]*\.(true|false)\b", made):
        made = re.sub(r"(?<![\w.'-])(?<!not )(c\.if-not-[^\s()]*\.(?:true|false))(?![\w'-])", r"(ap not \1)", made)
        made = with_names(with_names(made, "mathlib.Core.Path", "ap"), "mathlib.Core.Bool", "not")
    made = fitted(names, made.replace("\0", ""))
    made = re.sub(r"\.(in_default[^\s().]*)\.rest\b", r".\1.\1-own.rest", made)
    return re.sub(r"(?m)(?<![\w.-])" + re.escape(function).replace("_", "[-_]") + "[-_]spec(?![\\w-])", function + "_spec", made)


def main(crates):
    for crate in crates:
        folder = ROOT / "crates" / crate
        with tempfile.TemporaryDirectory() as out:
            ran = subprocess.run(["rt", "check", "--generated", out, "--old-names"], cwd=folder, capture_output=True, text=True)
            listed = pathlib.Path(out) / "names.json"
            if not listed.is_file():
                sys.exit(f"{crate}: {ran.stdout[-1500:]}{ran.stderr[-500:]}")
            found = json.loads(listed.read_text())
        for module, of in found.items():
            place = re.fullmatch(r"Rattle-" + crate + r"-proofs\.(.*)\.Lts", module)
            if not place:
                continue
            proof = folder / "proofs" / pathlib.Path(*place[1].split(".")) / "Proof.antt"
            if proof.is_file():
                text = proof.read_text()
                proof.write_text(turned(Names(of), place[1].split(".")[-1], text))


if __name__ == "__main__":
    main(sys.argv[1:])
