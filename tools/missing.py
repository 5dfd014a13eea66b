"""The imports that a log of rt misses, and those of names that stand elsewhere now: where each name is to be had."""
import collections
import re

from sources import ROOT, Import, crate_names, kit, names_of, paths

# where a crate's part of a log begins, and an error in a file of the crate
PART = re.compile(r"(?:== |rt: chose --jobs \d+ for )(\w+)")
PLACE = re.compile(r"(?:\./)?((?:src|specs|proofs)/\S+?\.(?:antt|rt)):\d+:\d+: error")
ADVICE = r"(?:.*?add `(?:ghost )?use ([^`]+?)\.\{)?"
IN_LOGIC = (rf"`([^`]+)` is not in scope{ADVICE}", r"no constructor `([^`]+)` is in scope()", r"the variable `([A-Z][^`]*)` there()")
IN_CODE = (r"(?:cannot find \w+|undeclared type) `(\w+)`(?:.*?add `use ([^`;]+);`)?",)
# modules that the prover makes of a function
OF_FUNCTION = (".Statement", ".Tie", ".Goals", ".Met")


def missing(log, crates):
    """Of each file the names that a log misses, whether code wants them, and the module that rt advises."""
    found, crate = collections.defaultdict(dict), crates[0] if len(crates) == 1 else None
    for line in log.splitlines():
        part = PART.match(line)
        crate = part[1] if part else crate
        at = PLACE.match(line) if crate else None
        for form in (*IN_LOGIC, *IN_CODE) if at else ():
            for name, advice in re.findall(form, line):
                found[ROOT / "crates" / crate / at[1]].setdefault(name, (form in IN_CODE, advice))
    return found


class Homes:
    """Where names can be imported from: the repository's modules have theirs; of the kit's and of code the `use` lines tell."""

    def __init__(self, files, order):
        self.order = order
        self.names, self.taken = collections.defaultdict(set), collections.defaultdict(list)
        for crate in crate_names():
            for path in paths(crate):
                for module, name in names_of(crate, path):
                    self.names[name].add(module)
        for file in files:
            for one in file.imports():
                for name in (one.names or ()) if one.logic else [one.last()]:
                    self.taken[name].append((one.module, file))

    def library(self, module):
        """The repository's crate that has a module; None where it is the kit's."""
        named = re.match(r"Rattle\.(\w+)", module)
        return named[1] if named and named[1] in self.order else None

    def stale(self, file):
        """The names that a file imports from modules of the repository that have them no more."""
        for one in file.imports():
            if one.logic and self.library(one.module):
                yield from (name for name in (taken.split(" as ")[0] for taken in one.names or ()) if not self.has(one.module, name))

    def has(self, module, name):
        """Whether a module has a name; those that the prover makes of functions and types are in no file."""
        of_type = module.replace(".proofs.", ".specs.declared.") in self.names[module.split(".")[-1]]
        return of_type or ".specs.contracts." in module or module.endswith(OF_FUNCTION) or module in self.names[name]

    def spelled(self, sign):
        """The name to import where a file writes a sign: `◌≡◌` for `≡`."""
        known = {name for name in (*self.names, *self.taken) if name == sign or ("◌" in name and sign in name.split("◌"))}
        return sign if sign in known else min(known, default=sign)

    def of(self, name, file, source):
        """The modules that a file may import a name from, the likeliest first; `source`: for code."""
        taken = {module for module, other in self.taken[name] if other.crate == file.crate or not module.startswith("crate::")}
        if source:
            found = {module for module in taken if module.split("::")[0] in {"crate", *self.order, *kit()} - {file.crate}}
        else:
            lower = self.order[: self.order.index(file.crate) + 1]
            found = {module for module in taken if "::" not in module and not self.library(module)}
            found |= {module for module in self.names[name] if self.library(module) in lower}
        return sorted(found, key=lambda module: self.likely(module, name, file))

    def likely(self, module, name, file):
        """The logic's own modules last; what is taken in the same folder, then in the same crate; then what the crate has itself; then what is taken most."""
        near = [other for there, other in self.taken[name] if there == module]
        beside = sum(other.path.parent == file.path.parent for other in near)
        of_logic = "::" not in module and not module.startswith("Rattle.")
        return of_logic, -beside, -sum(other.crate == file.crate for other in near), self.library(module) != file.crate, -len(near), module


def add(file, name, module):
    """Adds an import; a line that takes the name from elsewhere loses it."""
    source = "::" in module
    for one in file.imports():
        if one.names and one.logic and not source:
            one.names = [taken for taken in one.names if taken != name]
    if not file.runs():
        head = next((i for i, line in enumerate(file.parts) if not line.startswith(("--", "//"))), len(file.parts))
        file.parts.insert(head, [])
    word = "use" if source or file.path.suffix == ".antt" else "ghost use"
    file.runs()[0].append(Import(word, module, None if source else name, None, file.path.suffix))


def add_missing(files, order, log, crates):
    """Adds what the log misses and moves what stands elsewhere now, in the files of some crates, or of all where none is named."""
    places, asked = Homes(files, order), missing(log, crates)
    for file in (file for file in files if not crates or file.crate in crates):
        wanted = {name: (False, "") for name in places.stale(file)}
        for sign, how in asked[file.path].items():
            wanted.setdefault(places.spelled(sign), how)
        for name, (source, advice) in wanted.items():
            modules = places.of(name, file, source) or [advice]
            others = f", of {', '.join(modules)}" if len(modules) > 1 else ""
            print(f"{file.path.relative_to(ROOT)}: {name} {f'from {modules[0]}{others}' if modules[0] else 'is nowhere'}")
            if modules[0]:
                add(file, name, modules[0])
