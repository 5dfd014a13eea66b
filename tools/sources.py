"""The crates' files as the tools read them: code without comments, `use` lines, and the names that a module has."""
import functools
import pathlib
import re
import subprocess

ROOT = pathlib.Path(__file__).resolve().parent.parent
# libraries of the kit that are always there: no line of crates.txt lists them
ALWAYS = {"core", "std", "std_alloc", "std_collections", "std_heap", "std_io"}
COMMENT = {".antt": re.compile(r"(?m)(?:^|(?<=\s))--.*$"), ".rt": re.compile(r"(?m)(?:^|(?<=\s))//.*$")}
USE = re.compile(r"(ghost use|pub use|use) ([^\s{};]+?)(?:\.\{([^{}]*)\})?(?: as ([^\s;]+))?;?")
DECLARATION = re.compile(r"(\s*)(abbrev |unfoldable )?(pub )?(record |data |ruleset )?([^\s(){}:]+)(?=\s)")
CONSTRUCTORS = re.compile(r"\s+([^(){}:]+) :")
# what a source takes, also over several lines; no `ghost use`
CODE_USE = re.compile(r"(?m)^(pub )?use ([^;]*);")
TYPE = re.compile(r"(?m)^(?:pub )?(struct|enum) (\w+)[^{;]*(?:\{\n(.*?)^\})?", re.S)


@functools.lru_cache(maxsize=None)
def kit_folder():
    """Where the kit is: rt names the page beside which its other parts lie."""
    return pathlib.Path(subprocess.run(["rt", "doc"], capture_output=True, text=True, check=True).stdout.strip()).parent


@functools.lru_cache(maxsize=None)
def kit():
    """The kit's libraries that a line of crates.txt may list beside the repository's crates."""
    return frozenset(path.stem for path in kit_folder().glob("rlibs/*.rlib")) - ALWAYS


def listed():
    """Of each crate in crates.txt what its line says before the colon beside the name, as `staticlib`, and the libraries behind it."""
    lines = (line.partition("#")[0].partition(":") for line in (ROOT / "crates.txt").read_text().splitlines())
    return {head.split()[0]: (head.split()[1:], libraries.split()) for head, colon, libraries in lines if colon}


def crate_names():
    return sorted(path.parent.name for path in ROOT.glob("crates/*/src"))


def paths(crate):
    found = (path for part in ("src", "specs", "proofs") for path in (ROOT / "crates" / crate / part).rglob("*"))
    return sorted(path for path in found if path.suffix in COMMENT)


def code(text, suffix):
    return COMMENT[suffix].sub("", text)


def paths_taken(item):
    """The paths that the `use` item of a source takes, without its braces: `a::{b, c::{self, d}}` takes a::b, a::c and a::c::d."""
    path, brace, inner = item.partition("{")
    if not brace:
        return ["".join(item.split(" as ")[0].split()).removesuffix("::self")]
    parts, deep = [""], 0
    for sign in inner.rstrip().removesuffix("}"):
        deep += {"{": 1, "}": -1}.get(sign, 0)
        if sign == "," and not deep:
            parts.append("")
        else:
            parts[-1] += sign
    return [taken for part in parts if part.strip() for taken in paths_taken(path.strip() + part.strip())]


def one_by_one(text):
    """A source with a `use` line for each path that it takes."""
    return CODE_USE.sub(lambda item: "\n".join(f"{item[1]}use {path};" for path in paths_taken(item[2])), text)


class Import:
    """A `use` line: its word, its module, and the names that it takes; None where it takes the module, perhaps under another name."""

    def __init__(self, word, module, names, alias, suffix):
        self.word, self.module, self.alias = word, module, alias
        self.names = None if names is None else [name.strip() for name in names.split(",") if name.strip()]
        # whether it is for contracts and proofs, not for code
        self.logic = suffix == ".antt" or word == "ghost use"
        self.end = ";" if suffix == ".rt" else ""

    def last(self):
        return re.split(r"\.|::", self.module)[-1]

    def line(self):
        names = "" if self.names is None else f".{{{', '.join(self.names)}}}"
        return f"{self.word} {self.module}{names}{f' as {self.alias}' if self.alias else ''}{self.end}"


class File:
    """A file of a crate: its lines, each run of `use` lines as a list of imports, and its code without them."""

    def __init__(self, crate, path):
        self.crate, self.path = crate, path
        self.parts, rest = [], []
        for line in path.read_text().split("\n"):
            use = USE.fullmatch(line)
            if not use:
                self.parts.append(line)
                rest.append(line)
                continue
            if not self.parts or isinstance(self.parts[-1], str):
                self.parts.append([])
            self.parts[-1].append(Import(*use.groups(), path.suffix))
        self.code = code("\n".join(rest), path.suffix)

    def runs(self):
        return [part for part in self.parts if isinstance(part, list)]

    def imports(self):
        return [one for run in self.runs() for one in run]


# ---- the names that modules have
class Definition:
    def __init__(self, name, kind):
        self.name, self.kind, self.constructors = name, kind, []


def definitions(text):
    """The public definitions of an .antt file, also those within a module of parameters; a record's fields are none."""
    found, holder = [], None
    for line in code(text, ".antt").splitlines():
        declared = DECLARATION.match(line)
        if holder and line.strip() and len(line) - len(line.lstrip()) <= holder[0]:
            holder = None
        if holder:
            made = CONSTRUCTORS.match(line)
            if made and holder[1].kind == "data":
                holder[1].constructors += made[1].split()
        elif declared and declared[3]:
            found.append(Definition(declared[5], (declared[4] or declared[2] or "pub").strip()))
            holder = (len(declared[1]), found[-1]) if found[-1].kind in ("record", "data") else None
    return found


def names_of(crate, path):
    """Module and name of all that can be imported from a file; a source's types are modules of their own."""
    place = ".".join(path.relative_to(ROOT / "crates" / crate).with_suffix("").parts)
    module, text = f"Rattle.{crate}.{place}", path.read_text()
    if path.suffix == ".antt":
        for made in definitions(text):
            yield from ((module, name) for name in [made.name, *made.constructors])
        return
    module = module.replace(".src.", ".specs.declared.").removesuffix(".lib").removesuffix(".main")
    for form, name, body in TYPE.findall(code(text, ".rt")):
        yield f"{module}.{name}", name
        if form == "enum":
            yield from ((f"{module}.{name}.TheVariants", variant) for variant in re.findall(r"(?m)^    (\w+)", body))


# ---- must-fail edits, which change files by their text
def changes(edit):
    """The changes of an edit in order: the file's path, the text that is once in it, and the text in its place."""
    path, old = None, ""
    for line in edit.read_text().splitlines():
        word, _, rest = line.partition(":")
        rest = rest.removeprefix(" ")
        if word == "file":
            path = edit.parent.parent / rest.strip()
        elif word == "old":
            old = rest
        elif word == "new":
            yield path, old, rest
