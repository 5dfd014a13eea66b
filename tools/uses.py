#!/usr/bin/env python3
"""Makes and checks the `use` lines of every file, and the lines of crates.txt.

    tools/uses.py                       rewrites both in place
    tools/uses.py --check               changes nothing; names what it would rewrite, and fails where there is any
    tools/uses.py --add LOG [CRATE..]   adds the imports that a log of rt misses, and moves those of names that stand elsewhere now,
                                        in all files or in those of some crates; drops nothing. The log of a check in a crate's own
                                        folder says no crate: name it

A name that the file does not use is dropped, lines of one module are one, and they stand in one order: the kit, then the crates from
the lowest to the highest, then the crate's own modules. `rt tidy` drops what nothing uses from .antt files alone, and neither joins
lines nor orders them. In sources the lines that are not `ghost` stand as `rt fmt` has them, and what is had from a library of the kit
stays: a trait is used where its methods are called. A crate's line in crates.txt is all that it stands on, also through others, so that
the line says it; and the kit's libraries that its files name. What stands before the colon, as `staticlib`, stays as it is. It looks
too that what a must-fail edit changes is once in its file.
"""
import pathlib
import re
import sys

sys.dont_write_bytecode = True
from missing import add_missing  # noqa: E402
from sources import ALWAYS, CODE_USE, ROOT, File, changes, crate_names, kit, listed, paths, paths_taken  # noqa: E402

LIST = ROOT / "crates.txt"
GROUPS = ("Prim", "mathlib", "native", "lib")
# a name that stands first in a path of a source
FIRST = re.compile(r"(?<![\w:])(\w+)::")
# a name ends at these; at a sign too, which may stand beside a name without a blank
NAME = r'[^\s(){};,.\[\]"]'
SIGNS = re.compile(r"[λ←→∀⌜⌝⟨⟩:=|&!*<>@\\]+")


# ---- which names a file uses
def words_of(file, holders):
    """The names that stand by themselves: neither `x` in `Module.x` or `Type.x`, nor the field `x` of `r.x` or `(f r).x`."""
    bare = file.code
    if file.path.suffix == ".antt":
        bare = re.sub(rf"(?<=\S)\.{NAME}+", " ", bare)
    bare = re.sub(rf"(?<!{NAME})({NAME}+)\.{NAME}+", lambda whole: f"{whole[1]} " if whole[1] in holders else whole[0], bare)
    tokens = set(re.findall(f"{NAME}+", bare)) | ({"[]"} if "[]" in bare else set())
    pieces = {piece for token in tokens for piece in SIGNS.split(token)}
    return tokens | pieces | (set(re.findall(r"\w+", bare)) if file.path.suffix == ".rt" else set())


def in_words(name, words):
    """Whether a name is used; of an operator any part counts."""
    return name in words or ("◌" in name and any(part in words for part in name.split("◌") if part))


def has_type(file, one):
    """Whether the type of a module's name is imported from it too, or is the source's: `Type.Variant` needs no more."""
    name = one.last()
    if any(other.names and name in other.names for other in file.imports() if other.module == one.module):
        return True
    own = re.findall(r"(?m)^(?:pub )?(?:enum|struct) (\w+)", file.code) + [other.last() for other in file.imports() if not other.logic]
    return file.path.suffix == ".rt" and name in own


def is_used(file, one, words):
    """Whether any of an import is used; names that are not are taken out of it."""
    if one.word == "pub use" or (not one.logic and one.module.split("::")[0] in kit() | ALWAYS):
        return True
    if one.names is not None:
        one.names = [name for name in one.names if in_words(name.split(" as ")[-1], words)]
        return bool(one.names)
    if one.logic and not one.alias and has_type(file, one):
        return bool(re.search(rf"(?<!{NAME}){re.escape(one.last())}\.[^A-Z\s]", file.code))
    return (one.alias or one.last()) in words


def drop_unused(file):
    holders = {name.split(" as ")[-1] for one in file.imports() for name in one.names or (one.alias or one.last(),)}
    words = words_of(file, holders)
    for run in file.runs():
        run[:] = [one for one in run if is_used(file, one, words)]


# ---- the order of a file's lines
def merged(imports):
    """One line a module; a module itself, or under another name, has a line of its own."""
    found = {}
    for one in imports:
        first = found.setdefault((one.word, one.module, one.alias, one.names is None), one)
        if one.names is not None:
            first.names = list(dict.fromkeys(first.names + one.names))
    return [one for one in found.values() if one.names != []]


def place(one, crate, order):
    """Where an import stands: the standard library, the logic's, the kit's, the crates from the lowest to the highest, the file's own crate."""
    rest = (one.module, one.names is not None, one.word)
    library = re.match(r"Rattle\.(\w+)", one.module)
    if library and library[1] in ALWAYS:
        return (-1, 0, 0, *rest)
    if not library:
        top = one.module.split(".")[0]
        return (0, GROUPS.index(top) if top in GROUPS else len(GROUPS), 0, *rest)
    part = 0 if ".specs.declared." in one.module else 1 if ".specs." in one.module else 2
    if library[1] == crate:
        return (3, 0, part, *rest)
    return (2, order.index(library[1]), part, *rest) if library[1] in order else (1, 0, part, *rest)


def file_made(file, order):
    """The file's text with its imports merged and in order."""
    lines = []
    for part in file.parts:
        if isinstance(part, str):
            lines.append(part)
            continue
        logic = merged(one for one in part if one.logic)
        code = [one for one in part if not one.logic]
        logic.sort(key=lambda one: place(one, file.crate, order))
        code.sort(key=lambda one: (not one.module.startswith("crate::"), one.module))
        lines += [one.line() for one in logic + code]
    return "\n".join(lines)


# ---- the list of crates
def libraries(file, local):
    """The crates and the kit's libraries that a file names; `local` are modules of its own crate."""
    text = "\n".join([file.code, *(one.line() for one in file.imports())])
    named = set(re.findall(r"Rattle\.(\w+)", text))
    if file.path.suffix == ".rt":
        taken = [path for _, item in CODE_USE.findall(text) for path in paths_taken(item)]
        # `io` behind `use std::io` is no library of that name
        brought = {path.split("::")[-1] for path in taken if "::" in path}
        named |= {path.split("::")[0] for path in taken} - local
        named |= set(FIRST.findall(CODE_USE.sub("", text))) - local - brought
    return named - {file.crate}


def stands_on(files):
    """Of every crate what its files name: crates, and libraries of the kit."""
    names, found = set(crate_names()), {}
    for crate in names:
        own = [file for file in files if file.crate == crate]
        local = {module for file in own for module in re.findall(r"(?m)^(?:pub )?mod (\w+);", file.code)}
        found[crate] = set().union(*(libraries(file, local) for file in own)) & (names | kit())
    return found


def reached(crate, named):
    """All crates that a crate stands on, also through others."""
    found, todo = set(), [crate]
    while todo:
        below = named[todo.pop()] - kit() - found
        found |= below
        todo += below
    if crate in found:
        sys.exit(f"{crate} stands on itself")
    return found


def layers(named):
    """The crates from the lowest to the highest, then the programs; those of one layer by name. And what each stands on."""
    under, height = {crate: reached(crate, named) for crate in named}, {}
    for crate in sorted(named, key=lambda crate: len(under[crate])):
        height[crate] = 1 + max((height[other] for other in under[crate]), default=0)
    programs = {crate for crate in named if (ROOT / "crates" / crate / "src" / "main.rt").is_file()}
    return sorted(named, key=lambda crate: (crate in programs, height[crate], crate)), under


def list_made(named, order, under):
    head, stored = [line for line in LIST.read_text().splitlines() if line.startswith("#")], listed()
    names = {crate: " ".join([crate, *stored.get(crate, ([],))[0]]) for crate in order}
    lines = (
        " ".join([f"{names[crate]}:", *(other for other in order if other in under[crate]), *sorted(named[crate] & kit())]) for crate in order
    )
    return "\n".join([*head, *lines]) + "\n"


def unfit_edits(made):
    """The texts of must-fail edits that are not once in the file as it is made, each pair applied as it is read."""
    for edit in sorted(ROOT.glob("crates/*/must-fail/*.edit")):
        texts = {}
        for path, old, new in changes(edit):
            text = texts.get(path, made.get(path, ""))
            if text.count(old) != 1:
                yield f"{edit.relative_to(ROOT)}: not once in its file: {old}"
            texts[path] = text.replace(old, new, 1)


def main(words):
    adds, check = words[:1] == ["--add"] and len(words) > 1, words == ["--check"]
    if words and not adds and not check:
        sys.exit(__doc__)
    files = [File(crate, path) for crate in crate_names() for path in paths(crate)]
    if adds:
        add_missing(files, layers(stands_on(files))[0], pathlib.Path(words[1]).read_text(), words[2:])
    else:
        for file in files:
            drop_unused(file)
    named = stands_on(files)
    order, under = layers(named)
    made = {file.path: file_made(file, order) for file in files}
    unfit = list(unfit_edits(made))
    made[LIST] = list_made(named, order, under)
    changed = [path for path, text in made.items() if path.read_text() != text]
    for path in changed:
        print(f"{path.relative_to(ROOT)}: {'not what tools/uses.py makes' if check else 'written'}")
        if not check:
            path.write_text(made[path])
    for line in unfit:
        print(line)
    return 1 if unfit or (changed and check) else 0


if __name__ == "__main__":
    sys.exit(main(sys.argv[1:]))
