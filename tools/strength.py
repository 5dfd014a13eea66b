#!/usr/bin/env python3
"""docs/STRENGTH.md: of every public function its promise, its `requires`, where it is stated and proved, and the wrong answers that are
tried on it; and of every crate its laws.

    tools/strength.py            writes the file from the sources and the must-fail edits
    tools/strength.py --check    fails where the stored file is another, or a call has fewer wrong answers than it should
"""
import pathlib
import re
import sys

sys.dont_write_bytecode = True
from refusals import HEADING  # noqa: E402
from sources import ALWAYS, ROOT, listed, one_by_one  # noqa: E402

PAGE = ROOT / "docs" / "STRENGTH.md"
# what an owner or a reader of captures builds on: at least two wrong answers are tried on each public function of these
TWICE = {"ft_number", "pdu", "message", "label_list", "image", "connect", "init", "submit", "send", "timers", "receive", "ldp_ft"}
# the functions of the C boundary: each is a call of one of a crate below, whose promise and wrong answers are its own too
BOUNDARY = "ldp_ft"
# they share helpers: there only a function's own wrong answers count, and those of helpers that no other public function reaches
OWN = {"message_numbers", "image_numbers", "call_numbers", BOUNDARY}
HEAD = """# Strength of the promises

Made by `tools/strength.py` from the sources and the must-fail edits; the gate checks that it is up to date. What an owner can trust is in
docs/PROMISES.md; this page is its reference, crate by crate from the lowest to the highest.

**Functions.** Each public function: its promise in words, as the comment over it says it; its preconditions, "-" where it takes every
input, and the crates that call it and so show them; the definitions that its contract cites; where its proof stands ("search": the prover
finds it by itself); and the wrong answers that are tried on it, each with the rule that it breaks or with what it would do. The contract
stands over the function in `src/`. A wrong answer is a change of code or of a definition in `crates/NAME/must-fail/*.edit`; the gate
applies it, the prover must refuse it, and `tools/refusals.py` looks that it is refused by itself and for a false fact. Where a change is
made in a helper, or refused in a law, that is named in brackets.

**Inside.** The functions with a precondition that no other crate can call.

**Laws.** The public names of `proofs/`, file by file, each with its sentence; those without one, aids of the others, stand at the end of
their file. Words of statements are defined in `specs/`.

"""
FUNCTION = re.compile(r"^(pub )?(?:extern \"C\" )?fn (\w+)[(<]", re.M)
GHOST_USE = re.compile(r"^ghost use Rattle\.(\w+)\.specs\.([\w.]+?)(?:\.\{([^}]*)\})?;", re.M)
CLAUSE = re.compile(r"^    (requires|ensures)\*?(?: \w+)? \{", re.M)
EXPORTED = "#[unsafe(no_mangle)]\n"
REEXPORTED = re.compile(r"^pub use \w+(?:::\w+)*::(\w+);", re.M)
PROOFS = ("Proof.antt", "Answers.antt", "Invariants.antt")
LAW = re.compile(r"\s*(?:abbrev |unfoldable )?pub (?:record |data |ruleset )?([^\s(){}:]+)(?=\s)")


def words_above(lines, mark):
    """The comment that ends these lines, headings of sections too, without its marks; attributes between are passed over."""
    said = []
    for line in reversed(lines):
        if line.startswith("#["):
            continue
        if not line.lstrip().startswith(mark):
            break
        said.insert(0, line.strip().removeprefix(mark).strip(" -"))
    return " ".join(said).replace("|", "\\|")


def head_of(lines, mark):
    """The comment that opens a file."""
    return words_above(lines[: next((n for n, line in enumerate(lines) if not line.startswith(mark)), len(lines))], mark)


def clauses(text, kind):
    """The texts of a function's clauses of one kind, `requires` or `ensures`."""
    found, head = [], text[: text.find("\n{")]
    for clause in CLAUSE.finditer(head):
        end, deep = clause.end(), 1
        while deep and end < len(head):
            deep += {"{": 1, "}": -1}.get(head[end], 0)
            end += 1
        if clause[1] == kind:
            found.append(" ".join(head[clause.end() : end - 1].split()))
    return found


class Function:
    def __init__(self, crate, path, public, name, text, cited, above):
        self.crate, self.public, self.name, self.text = crate, public, name, text
        self.promise = words_above(above.splitlines(), "//") or "-"
        self.requires = "; ".join(f"`{clause}`" for clause in clauses(text, "requires")).replace("|", "\\|")
        inside = path.relative_to(crate / "src").with_suffix("").as_posix()
        self.module = "" if inside in ("lib", "main") else inside + "/"
        promised = " ".join(clauses(text, "ensures"))
        self.cites = [f"`{word}` ({place})" for word, place in cited.items() if re.search(rf"(?<![\w-]){re.escape(word)}(?![\w-])", promised)]

    def proof(self):
        place = f"proofs/{self.module}{self.name}"
        return f"`{place}`" if any((self.crate / place / file).is_file() for file in PROOFS) else "search"


def definitions(crate, source):
    """The names that a file's contracts may cite, each with the file that defines it."""
    cited = {}
    for library, module, names in GHOST_USE.findall(source):
        place = f"specs/{module.replace('.', '/')}.antt"
        place = place if library == crate.name else f"{library}/{place}"
        for name in names.split(",") if names and "declared" not in module and library not in ALWAYS else []:
            cited[name.strip()] = place
    return cited


def functions(crate):
    """The functions of a crate by name; public are those that another crate can call."""
    found = {}
    root = crate / "src" / "lib.rt"
    exported = REEXPORTED.findall(one_by_one(root.read_text())) if root.is_file() else []
    open_modules = re.findall(r"^pub mod (\w+);", root.read_text(), re.M) if root.is_file() else []
    for path in sorted((crate / "src").rglob("*.rt")):
        source = path.read_text()
        starts = list(FUNCTION.finditer(source)) + [None]
        for this, following in zip(starts, starts[1:]):
            text = source[this.start() : following.start() if following else len(source)]
            above = source[: this.start()]
            seen = path == root or path.stem in open_modules or this[2] in exported or above.endswith(EXPORTED)
            found[this[2]] = Function(crate, path, bool(this[1]) and seen, this[2], text, definitions(crate, source), above)
    return found


def reached(name, all_of_crate):
    """The functions of the crate that a function's body reaches, itself included."""
    seen, todo = {name}, [name]
    while todo:
        text = all_of_crate[todo.pop()].text
        body = text[text.find("\n{") :]
        for other in all_of_crate:
            if other not in seen and re.search(rf"\b{other}\(", body):
                seen.add(other)
                todo.append(other)
    return seen


def wrong_answers(crate):
    """Label, name that is refused, and words, of every wrong answer that is tried in a crate."""
    found = []
    for edit in sorted((crate / "must-fail").glob("*.edit")):
        for line in edit.read_text().splitlines():
            if HEADING.match(line):
                label, name, words = HEADING.match(line).groups()
                found.append((label, name, words))
    return sorted(found)


def tried_on(function, here, tried, alone):
    """The wrong answers on a function: its own, those of inner helpers that it reaches, and, where it is alone, those of laws."""
    near = reached(function.name, here)
    helpers = {name for name in near if name == function.name or not here[name].public}
    return [(label, name, words) for label, name, words in tried if name in helpers or (alone and name not in here)]


def counted(function, here, answers):
    """Those of its wrong answers that count: at the boundary not those of helpers that another public function reaches too."""
    if function.crate.name not in OWN:
        return answers
    others = set().union(*(reached(f.name, here) for f in here.values() if f.public and f is not function))
    return [answer for answer in answers if answer[1] == function.name or answer[1] not in others]


def cell(answers, own):
    said = [f"`{label}`{'' if name == own else f' ({name})'}: {words}" for label, name, words in answers]
    return "; ".join(said).replace("|", "\\|")


def called_below(function):
    """The function of a crate below that is all of the body of a function of the boundary; None where it does more."""
    body = function.text[function.text.find("\n{") :]
    only = re.fullmatch(r"\n\{\s*(\w+)::(\w+)\([^()]*\)\s*\}\s*(?:#\[unsafe\(no_mangle\)\]\s*)?", body)
    return functions(ROOT / "crates" / only[1])[only[2]] if only and function.crate.name == BOUNDARY else None


def counted_below(function):
    """How many wrong answers count that are tried on a function, in its own crate."""
    here = functions(function.crate)
    own = here[function.name]
    return len(counted(own, here, tried_on(own, here, wrong_answers(function.crate), False)))


def callers(function, sources):
    """The crates that call a function, its own included, by their sources."""
    own, name = function.crate.name, function.name
    module = function.module.rstrip("/")
    inside = re.search(rf"(?<!fn )\b{name}\(", sources[own])
    whole = re.compile(rf"\b{own}::(?:\w+::)*{name}\b")
    others = [
        crate
        for crate, text in sources.items()
        if crate != own and (whole.search(text) or (f"use {own}::{module};" in text and f"{module}::{name}(" in text))
    ]
    return ([own] if inside else []) + others


def needs(function, sources):
    """The preconditions of a function, and who shows them."""
    if not function.requires:
        return "-"
    return f"{function.requires}; shown by {', '.join(callers(function, sources)) or 'nobody: it is not called'}"


def function_table(here, tried, sources, faults):
    """The rows of the public functions, and the wrong answers that they show."""
    public = [f for f in here.values() if f.public]
    rows, shown = [], set()
    for function in public:
        answers = tried_on(function, here, tried, len(public) == 1)
        shown.update(answers)
        name, crate, below = function.name, function.crate.name, called_below(function)
        count = len(counted(function, here, answers)) + (counted_below(below) if below else 0)
        if crate in TWICE and count < 2:
            faults.append(f"{crate}::{name}: {count} wrong answers tried, two wanted")
        stated = ", ".join(function.cites) or "-"
        promise = f"`{below.crate.name}::{below.name}`" if below else function.promise
        told = "; ".join(filter(None, [cell(answers, name), f"those of {promise}" if below else ""])) or "none"
        rows.append(f"| `{name}` | {promise} | {needs(function, sources)} | {stated} | {function.proof()} | {told} |")
    head = ["| function | promise | requires | stated | proved | wrong answers tried |", "|---|---|---|---|---|---|"]
    return [*head, *rows, ""] if rows else [], shown


def inside_table(here):
    """The preconditions of functions that only their own crate can call."""
    rows = [f"| `{f.name}` | {f.promise} | {f.requires} |" for f in here.values() if f.requires and not f.public]
    return ["| inside | what it does | requires |", "|---|---|---|", *rows, ""] if rows else []


def laws_in(path):
    """The rows of a file of laws: what it holds, each law with a sentence, and the names of the others."""
    lines = path.read_text().splitlines()
    rows, bare = [f"| {path.relative_to(path.parent.parent)} | *{head_of(lines, '--')}* |"], []
    for number, line in enumerate(lines):
        law = LAW.match(line)
        said = law and words_above(lines[:number], "--")
        if said:
            rows.append(f"| `{law[1]}` | {said} |")
        elif law:
            bare.append(f"`{law[1]}`")
    return rows + ([f"| and | {', '.join(dict.fromkeys(bare))} |"] if bare else [])


def law_table(crate):
    rows = [row for path in sorted((crate / "proofs").glob("*.antt")) for row in laws_in(path)]
    return ["| law | says |", "|---|---|", *rows, ""] if rows else []


def section(crate, sources, faults):
    here, tried = functions(crate), wrong_answers(crate)
    of_functions, shown = function_table(here, tried, sources, faults)
    refused = [answer for answer in tried if answer not in shown]
    lines = [f"## {crate.name}\n", head_of((crate / "src" / "lib.rt").read_text().splitlines(), "//") + "\n", *of_functions, *inside_table(here)]
    if refused:
        lines += ["| refused in | wrong answer tried |", "|---|---|"]
        lines += [f"| `{name}` | `{label}`: {words} |" for label, name, words in refused] + [""]
    return "\n".join(lines + law_table(crate)) + "\n"


def cited_in_coverage(tried):
    """The wrong answers that docs/COVERAGE.md names and nobody tries."""
    page = (ROOT / "docs" / "COVERAGE.md").read_text()
    named = {(crate, label) for crate, label in re.findall(r"`(\w+)/(\w+)`", page) if (ROOT / "crates" / crate).is_dir()}
    return sorted(f"docs/COVERAGE.md names {crate}/{label}, which is not tried" for crate, label in named - tried)


def crates():
    """The crates in the order of crates.txt."""
    return [ROOT / "crates" / name for name in listed()]


def main(check):
    faults = []
    libraries = [crate for crate in crates() if (crate / "src" / "lib.rt").is_file()]
    sources = {crate.name: one_by_one("\n".join(path.read_text() for path in sorted((crate / "src").rglob("*.rt")))) for crate in crates()}
    made = HEAD + "".join(section(crate, sources, faults) for crate in libraries)
    faults += cited_in_coverage({(crate.name, label) for crate in libraries for label, _, _ in wrong_answers(crate)})
    if not check:
        PAGE.write_text(made)
    elif not PAGE.is_file() or PAGE.read_text() != made:
        faults.append("docs/STRENGTH.md is not what tools/strength.py makes")
    for fault in faults:
        print(fault)
    return 1 if faults else 0


if __name__ == "__main__":
    sys.exit(main(sys.argv[1:] == ["--check"]))
