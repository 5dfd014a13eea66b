#!/usr/bin/env python3
"""Brings the repository's own definitions and lemmas to the spelling of today's Rattle, once, right after port.py.

Types and modules are in camel case, all else in snake case; a dash joins the names of two definitions, or a type and a
name, and a plain word is added with `_`: `beAt-suc` is `be_at-suc`, `laid-inside` is `laid_inside`. Names of functions
in src/, exported names, strings, inputs and outputs stay. Values of plain types are copied, so each type that port.py
lets go of by itself derives Clone and Copy.

    tools/port_spelling.py            rewrites crates/, and the names that README.md and docs/ give in backquotes
    tools/port_spelling.py --list     prints old and new names, and which fall together
"""
import pathlib
import re
import sys

ROOT = pathlib.Path(__file__).resolve().parent.parent
NAME = r"[^\s(){}.;:,@\"«»\[\]\\`|]+"
# what a line declares: a definition, a law, a field, or constructors before their type
DECLARED = re.compile(r"\s*(?:abbrev |unfoldable )*(?:pub )?(?:abbrev |unfoldable )?(record |data |ruleset )?(" + NAME + r"(?: " + NAME + r")*?)((?: \{[^{}]*\}| \([^()]*\))*) (?::|where)(?=\s|$)")
NO_DECLARATION = ("--", "let ", "λ", "use ", "module ", "(", "ghost ", "unfolding ", "∙", "|")
# words of the library and of arithmetic that laws are named after
OF_LIBRARY = set(
    "length take drop append set map replicate reverse get_or suc zero add sub mul div mod pow min max le lt eq eqb leb ltb cond not pred"
    " xor and or bit_and bit_or bit_xor get_or sum lookup".split()
)
# fields and constructors that would have the spelling of a definition
APART = {
    "is-mapping": "of_mapping",
    "is-release": "of_release",
    "is-withdraw": "of_withdraw",
    "let-go": "let_go_is",
    "message-event": "message_event_lem",
    "noFt": "has_no_ft",
    "passed_on": "passed_on_plain",
}
# made by Rattle for a function, or its proof's own
OF_RATTLE = re.compile(r"(invariant|decreases)-|.*[-_]spec$|answers$")
PROOF_OF = {"Proof.antt", "Answers.antt", "Invariants.antt"}


def snake(word):
    if not word[:1].islower():
        return word
    return re.sub(r"(?<=[a-z0-9₀-₉])([A-Z]+)(?=[A-Z][a-z])|(?<=[a-z0-9₀-₉])([A-Z])", lambda it: "_" + it[0], word).lower()


def sources(suffixes=(".antt",)):
    return sorted(p for p in ROOT.glob("crates/*/*/**/*") if p.suffix in suffixes and "out" not in p.parts and p.is_file())


def declared():
    """The names that specs/ and proofs/ declare, and those of them that are definitions."""
    names, definitions = set(), set()
    # (copies of tools/port_edits.py aside)
    for path in (path for path in sources() if "__zz_" not in path.name):
        for line in path.read_text().split("\n"):
            found = DECLARED.match(line)
            if not found or path.name in PROOF_OF and re.search(r" : (tie|goal)\.| → statement ", line) or line.lstrip().startswith(NO_DECLARATION):
                continue
            for name in found[2].split(" "):
                if OF_RATTLE.match(name):
                    continue
                names.add(name)
                if re.match(r"\s*(pub )?(abbrev|unfoldable)", line):
                    definitions.add(name)
    return names, definitions


def respelled(name, words):
    parts = [snake(part) for part in name.split("-")]
    out = parts[0]
    for before, part in zip(parts, parts[1:]):
        named = all(one in words or one[:1].isupper() for one in (before, part)) or before[:1].isupper()
        out += ("-" if named else "_") + part
    return out


def table():
    names, definitions = declared()
    words = OF_LIBRARY | {snake(name) for name in definitions if "-" not in name}
    new = {name: APART.get(name) or respelled(name, words) for name in names}
    for spelled, old in fallen(new, names).items():
        for name in old:
            if name not in definitions:
                new[name] = spelled + "_lem"
    return {name: spelled for name, spelled in new.items() if name != spelled and re.match(r"[A-Za-z]", name)}, names


def fallen(changes, names):
    """Names that would have the spelling of another."""
    found = {}
    for name in names:
        found.setdefault(changes.get(name, name), set()).add(name)
    return {new: sorted(old) for new, old in found.items() if len(old) > 1}


TOKEN = re.compile(NAME)
PIECES = {".antt": re.compile(r"(--[^\n]*|\"(?:[^\"\\\n]|\\.)*\")"), ".rt": re.compile(r"(//[^\n]*|b?\"(?:[^\"\\]|\\.)*\"|b?'(?:[^'\\\n]|\\.)')")}


def in_words(changes, text):
    """A comment or a page: names in backquotes, and names that no English word is spelled like."""
    text = re.sub(r"`([^`\n]+)`", lambda it: "`" + TOKEN.sub(lambda one: changes.get(one[0], one[0]), it[1]) + "`", text)
    humps = {old: new for old, new in changes.items() if re.search(r"[a-z][A-Z]", old)}
    return re.sub(r"[A-Za-z][\w'-]*", lambda it: humps.get(it[0], it[0]), text)


def in_pages(changes, now, text):
    def one(name):
        if name in changes or name in now:
            return changes.get(name, name)
        near = snake(name.replace("-", "_"))
        return near if near in now else name

    return re.sub(r"`([^`\n]+)`", lambda it: "`" + TOKEN.sub(lambda word: one(word[0]), it[1]) + "`", text)


def searched(text):
    """A crate's root file with the line by which the check tries its tactics, behind the comment that opens it."""
    if "#![tactic(auto)]" in text:
        return text
    lines = text.split("\n")
    at = next(i for i, line in enumerate(lines) if not line.startswith("//"))
    # a comment right above the first item belongs to that item
    if at and re.match(r"(pub )?(fn|const|struct|enum|#\[)|extern", lines[at]):
        at = 0
    return "\n".join([*lines[:at], "#![tactic(auto)]", *lines[at:]])


def turned(changes, text, suffix):
    pieces = PIECES[suffix].split(text)
    for i, piece in enumerate(pieces):
        if i % 2 == 0:
            pieces[i] = TOKEN.sub(lambda it: changes.get(it[0], it[0]), piece)
        elif piece.startswith(("--", "//")):
            pieces[i] = in_words(changes, piece)
    return "".join(pieces)


def main(words):
    changes, names = table()
    together = fallen(changes, names)
    for new, old in sorted(together.items()):
        print(f"together: {new}: {' '.join(old)}", file=sys.stderr)
    if words == ["--list"]:
        for old, new in sorted(changes.items()):
            print(f"{old}\t{new}")
        return 1 if together else 0
    for path in sources((".antt", ".rt")):
        text = path.read_text()
        new = turned(changes, text, path.suffix)
        if path.suffix == ".rt":
            new = new.replace("#[derive(Drop)]", "#[derive(Clone, Copy)]")
        if new != text:
            path.write_text(new)
    # pages also have names that port.py itself respelled
    now = {changes.get(name, name) for name in names}
    for path in [ROOT / "README.md", *sorted((ROOT / "docs").rglob("*.md"))]:
        path.write_text(in_pages(changes, now, path.read_text()))
    for path in sorted(ROOT.glob("crates/*/src/lib.rt")) + sorted(ROOT.glob("crates/*/src/main.rt")):
        path.write_text(searched(path.read_text()))
    return 0


if __name__ == "__main__":
    sys.exit(main(sys.argv[1:]))
