#!/usr/bin/env python3
"""Brings the must-fail edits to today's spelling: each wrong answer is turned by the scripts that turned the crates.

    tools/port_edits.py spread          in a checkout of the older commit: beside each file that an edit changes stands a copy with the
                                        edit applied, FILE__zz_EDIT; then port.py and tools/port_spelling.py are run there
    tools/port_edits.py gather TURNED OLDER PORTED
                                        in today's repository: writes each edit with the texts that differ in TURNED between a file and its
                                        copy; OLDER is the older checkout, PORTED that which port.py left, before the spelling
"""
import difflib
import pathlib
import re
import sys

sys.dont_write_bytecode = True
import port_spelling  # noqa: E402

ROOT = pathlib.Path.cwd()
MARK = "__zz_"


def pairs(edit):
    """The lines of an edit, and its changes: the line's place, the file, the old and the new text."""
    lines, found, file, old = edit.read_text().split("\n"), [], None, None
    for i, line in enumerate(lines):
        if line.startswith("file: "):
            file = line[6:].strip()
        elif line.startswith("old: "):
            old = (i, line[5:])
        elif line.startswith("new:"):
            found.append((*old, i, line[4:].removeprefix(" "), file))
    return lines, found


def copy_of(crate, file, edit):
    path = crate / file
    return path.with_name(f"{path.stem}{MARK}{edit.stem}{path.suffix}")


def edits():
    return [(edit.parent.parent, edit) for edit in sorted(ROOT.glob("crates/*/must-fail/*.edit"))]


def spread():
    for crate, edit in edits():
        texts = {}
        for _, old, _, new, file in pairs(edit)[1]:
            text = texts.get(file) or (crate / file).read_text()
            assert text.count(old) == 1, (edit, old)
            texts[file] = text.replace(old, new)
        for file, text in texts.items():
            copy_of(crate, file, edit).write_text(text)


def hunks(one, other):
    return [step[1:] for step in difflib.SequenceMatcher(None, one, other, autojunk=False).get_opcodes() if step[0] != "equal"]


def shortest(line, other, text, indented):
    """The texts that differ: the line where it stands once in the file, else as little of it as does."""
    if indented and text.count(line) == 1:
        return line, other
    start = 0
    while start < min(len(line), len(other)) and line[start] == other[start]:
        start += 1
    end = 0
    while end < min(len(line), len(other)) - start and line[-1 - end] == other[-1 - end]:
        end += 1
    a, b = start, len(line) - end
    if text.count(line) == 1 or line.strip() and text.count(line.strip()) == 1:
        whole = line.strip() if text.count(line.strip()) == 1 else line
        return whole, (other.strip() if whole == line.strip() else other)
    return (line[a:b], other[a : len(other) - end]) if text.count(line[a:b]) == 1 else (None, None)


def gather(folder):
    for crate, edit in edits():
        there = folder / crate.relative_to(ROOT)
        lines, found = pairs(edit)
        for file in dict.fromkeys(pair[4] for pair in found):
            mine = [pair for pair in found if pair[4] == file]
            base = (there / file).read_text().replace("#![tactic(auto)]\n", "")
            one, other = base.split("\n"), copy_of(there, file, edit).read_text().split("\n")
            steps = []
            for a, b, c, d in hunks(one, other):
                if b - a == d - c:
                    steps += [(one[a + k], other[c + k]) for k in range(b - a) if one[a + k] != other[c + k]]
                else:
                    steps.append(None)
            # in the order of the file, as the older texts stand there
            older = (OLD / crate.relative_to(ROOT) / file).read_text()
            order = sorted(mine, key=lambda pair: older.find(pair[1]) if pair[1] in older else -1)
            if len(steps) != len(mine) or None in steps:
                print(f"{edit.relative_to(ROOT)}: {file}: {len(mine)} changes, {len(steps)} differences")
                continue
            for (i, old, j, _, _), (line, new) in zip(order, steps):
                was, now = shortest(line, new, base, old.startswith(" "))
                if was is None:
                    print(f"{edit.relative_to(ROOT)}: {file}: not once: {line.strip()}")
                    continue
                lines[i], lines[j] = f"old: {was}", f"new: {now}"
        edit.write_text(HEADING.sub(lambda it: it[1] + name_now(it[2]) + it[3], "\n".join(lines)))


# the law or function of a heading `# LABEL (NAME): what is wrong`
HEADING = re.compile(r"(?m)^(# \w+ \()([\w-]+)(\): )")


def name_now(name):
    if name in CHANGES:
        return CHANGES[name]
    near = port_spelling.snake(name.replace("-", "_"))
    if name in NOW or re.search(rf"fn {name}\b", SOURCES):
        return name
    if near in NOW or re.search(rf"fn {near}\b", SOURCES):
        return near
    print(f"no name: {name}")
    return name


if __name__ == "__main__":
    if sys.argv[1] == "spread":
        spread()
    else:
        OLD = pathlib.Path(sys.argv[3])
        port_spelling.ROOT = pathlib.Path(sys.argv[4])
        CHANGES, names = port_spelling.table()
        NOW = {CHANGES.get(name, name) for name in names}
        SOURCES = "".join(path.read_text() for path in ROOT.glob("crates/*/src/**/*.rt"))
        gather(pathlib.Path(sys.argv[2]))
