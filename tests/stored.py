"""How every script of test data ends: it writes the files that it made, or with --check says which of the stored ones are others."""
import pathlib
import sys

TOP = pathlib.Path(__file__).resolve().parents[1]


def settle(files, folder=None):
    """The files made, by their paths below crates/; `folder` is to hold no other file."""
    crates = TOP / "crates"
    if sys.argv[1:] != ["--check"]:
        for name, data in files.items():
            (crates / name).parent.mkdir(parents=True, exist_ok=True)
            (crates / name).write_bytes(data)
        return
    wrong = [name for name, data in files.items() if not (crates / name).is_file() or (crates / name).read_bytes() != data]
    there = {f"{folder}/{path.name}" for path in (crates / folder).iterdir()} if folder else set()
    wrong += sorted(there - set(files))
    if wrong:
        script = pathlib.Path(sys.argv[0]).resolve().relative_to(TOP)
        sys.exit(f"{script} makes another, or none: {' '.join(wrong)}")
