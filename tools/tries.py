"""Tries wrong answers as rt tries an edit: a copy of a crate with other texts is checked over what `rt check` kept of the crate as it stands."""
import concurrent.futures
import functools
import hashlib
import os
import pathlib
import shutil
import signal
import subprocess
import sys
import tempfile

from sources import ROOT, kit, kit_folder, listed

PARTS = ("src", "specs", "proofs")
# a function's own proof, which no crate above can cite
OWN_PROOFS = ("Proof.antt", "Answers.antt", "Invariants.antt")
# what a check at one job may take
MEMORY = 3_000_000_000


def folder(crate):
    return ROOT / "crates" / crate


def kept_work(crate):
    return folder(crate) / "out" / "incremental"


def lanes():
    """How many checks run at a time: one a processor, as many as memory holds."""
    free = next(int(line.split()[1]) for line in pathlib.Path("/proc/meminfo").read_text().splitlines() if line.startswith("MemAvailable:"))
    return max(1, min(len(os.sched_getaffinity(0)), free * 1024 // MEMORY))


@functools.lru_cache(maxsize=None)
def below(crate):
    """The repository's crates that a crate stands on, also through others."""
    found = []
    for other in (name for name in listed()[crate][1] if folder(name).is_dir()):
        found += [name for name in (*below(other), other) if name not in found]
    return tuple(found)


def command(crate):
    """The command of a check, as `rt check` gives it to the prover."""
    tools, (said, libraries) = kit_folder(), listed()[crate]
    root = "src/main.rt" if (folder(crate) / "src" / "main.rt").is_file() else "src/lib.rt"
    words = [tools / "bin" / "rattle", "check", "--crate-name", crate, root, "-L", f"dependency={tools}/rlibs"]
    for name in ("std", *(name for name in libraries if name in kit())):
        words += ["--extern", f"{name}={tools}/rlibs/{name}.rlib"]
    for name in below(crate):
        built = folder(name) / "out" / "rlib"
        words += ["-L", f"dependency={built}"]
        if name in libraries:
            words += ["--extern", f"{name}={built}/{name}.rlib"]
    words += ["--antt-project", tools / "rattle" / "logic" / "antt-project.json", "--logic-built", tools / "logic_built"]
    words += ["--jobs", "1", "--links", f"{crate}=", *(["--crate-type", "staticlib"] if "staticlib" in said else [])]
    return [str(word) for word in words]


def stands_on(crate):
    """A sum of all that a check of a crate reads: the kit, crates.txt, its own files, and of the crates below what others can cite."""
    found = hashlib.sha256(subprocess.run(["rt", "version"], capture_output=True, check=True).stdout)
    for name in (*below(crate), crate):
        found.update(repr((name, listed()[name])).encode())
        for path in sorted(path for part in PARTS for path in (folder(name) / part).rglob("*") if path.is_file()):
            place = path.relative_to(folder(name))
            # right in proofs/ such a file is one of laws
            if name == crate or place.parts[0] != "proofs" or len(place.parts) == 2 or path.name not in OWN_PROOFS:
                found.update(repr((str(place), path.read_bytes())).encode())
    return found.hexdigest()


def prove(crates):
    """Proves crates and those below them, so that each has kept its work; none where all are meant. Ends where one is not proved."""
    places = [folder(crate) for crate in crates] or [ROOT]
    for place in places:
        ran = subprocess.run(["rt", "all", "check", "--jobs", str(lanes())], cwd=place, stdout=subprocess.PIPE, stderr=subprocess.STDOUT, text=True, check=False)
        if ran.returncode:
            sys.exit("\n".join([*ran.stdout.splitlines()[-60:], f"{place.name}: not proved, so no wrong answer can be tried"]))


def linked(one, other):
    """Gives a checked file a second name, since a check replaces such a file and changes none; copies any other."""
    if one.endswith(".oantt"):
        try:
            return os.link(one, other)
        except OSError:
            pass
    return shutil.copy2(one, other)


def checked(crate, texts):
    """The status and the words of a check of a crate with other texts in place of its own, by path."""
    with tempfile.TemporaryDirectory(prefix="tried-") as room:
        room = pathlib.Path(room)
        for part in (part for part in PARTS if (folder(crate) / part).is_dir()):
            shutil.copytree(folder(crate) / part, room / part)
        for path, text in texts.items():
            (room / path.relative_to(folder(crate))).write_text(text)
        for _ in range(2):
            shutil.rmtree(room / "work", ignore_errors=True)
            shutil.copytree(kept_work(crate), room / "work", copy_function=linked)
            words = [*command(crate), "--incremental", str(room / "work")]
            ran = subprocess.run(words, cwd=room, stdin=subprocess.DEVNULL, stdout=subprocess.PIPE, stderr=subprocess.STDOUT, errors="replace", check=False)
            # killed, most likely for memory: once more
            if ran.returncode != -signal.SIGKILL:
                break
        return ran.returncode, ran.stdout


def edited(pairs):
    """The texts of the files that changes make, by path; None where one of the texts to change is not once in its file."""
    texts = {}
    for path, old, new in pairs:
        text = texts.get(path) if path in texts else path.read_text() if path.is_file() else ""
        if text.count(old) != 1:
            return None
        texts[path] = text.replace(old, new)
    return texts


def work_of(crate):
    """What tells whether a file of a crate's kept work was changed."""
    return {path: (found.st_ino, found.st_size, found.st_mtime_ns) for path in kept_work(crate).rglob("*") if path.is_file() for found in [path.stat()]}


def try_all(tries, told):
    """Tries changes of crates side by side, each a crate and its changed texts, and tells each as it ends: its number, the status and the words.

    First each crate is checked as it stands, over the same work and by the same command: a refusal tells something only where that is proved."""
    crates = sorted({crate for crate, _ in tries})
    before = {crate: work_of(crate) for crate in crates}
    with concurrent.futures.ThreadPoolExecutor(lanes()) as pool:
        for crate, (status, words) in zip(crates, pool.map(lambda crate: checked(crate, {}), crates)):
            if status:
                sys.exit("\n".join([*words.splitlines()[-30:], f"{crate}: not proved again over what its own check kept, so no wrong answer can be tried"]))
        running = {pool.submit(checked, *one): number for number, one in enumerate(tries)}
        for done in concurrent.futures.as_completed(running):
            told(running[done], *done.result())
    for crate in crates:
        if work_of(crate) != before[crate]:
            sys.exit(f"{crate}: what its own check kept was changed meanwhile; run this again")
