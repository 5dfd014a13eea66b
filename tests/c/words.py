#!/usr/bin/env python3
"""words.py CABINET: how the example cabinet is called, and that one cabinet at a time has a store.

A word that is wrong is refused in one line that names it, with status 2, before a store is made or a socket opened. A second cabinet on a store says so and ends with status 3,
also where both make it at one moment; the first is not disturbed.
"""
import subprocess
import sys
import tempfile
import time
from pathlib import Path

sys.dont_write_bytecode = True
from cabinets import Cabinet

LSRS = ("10.255.0.1", "10.255.0.2")
ROUTE = ("listen", "127.0.0.1", "127.0.0.2", "0")
WRONG = [  # the words behind STORE, and what the line says
    ((*LSRS, "listen", "127.0.0.1", "127.0.0.2", "65536"), "65536: a port"),
    ((*LSRS, "listen", "127.0.0.1", "127.0.0.2", "port"), "port: a port"),
    ((*LSRS, "connect", "127.0.0.1", "127.0.0.2", "0"), "0: a port"),
    ((*LSRS, "listen", "127.0.0.1", "6460"), "listen: too few words"),
    ((*LSRS, "listen", "127.0.0.1", "127.0.0.256", "0"), "127.0.0.256: an address"),
    ((*LSRS, "hello"), "hello: too few words"),
    ((*LSRS, "wait", "127.0.0.1", "127.0.0.2", "0"), "wait: the fourth word"),
    (("10.255.0.1", "10.255.0.1", *ROUTE), "10.255.0.1: the peer has an LSR identifier of its own"),
    (("10.255.0", "10.255.0.1", *ROUTE), "10.255.0: an address"),
    ((*LSRS, *ROUTE, "0"), "0: a KeepAlive time"),
    ((*LSRS, *ROUTE, "15", "65536"), "65536: a timeout"),
    ((*LSRS, *ROUTE, "15", "30", "final"), "final: a form"),
    ((*LSRS, *ROUTE, "15", "30", "draft", "more"), "more: a word too many"),
    ((), "too few words"),
]
WRONG_KEYS = [(b"", "a key is the first line"), (b"\n", "a key has 1 to 80 bytes"), (b"k" * 81 + b"\n", "a key has 1 to 80 bytes")]


def ends(*words, status):
    """One line on standard error, and the status."""
    ended = subprocess.run([str(w) for w in words], capture_output=True, text=True, stdin=subprocess.DEVNULL, timeout=100)
    assert ended.returncode == status and ended.stderr.count("\n") == 1 and not ended.stdout, (words, ended)
    return ended.stderr


def words_are_read_first(program, folder):
    store, key = folder / "none", folder / "key"
    for words, line in WRONG:
        said = ends(program, store, *words, status=2)
        assert said.startswith("cabinet: ") and line in said, (words, said)
    for text, line in WRONG_KEYS:
        key.write_bytes(text)
        assert line in ends(program, "--md5", key, store, *LSRS, *ROUTE, status=2), text
    assert "No such file" in ends(program, "--md5", folder / "no-key", store, *LSRS, *ROUTE, status=2)
    assert not store.exists()
    helped = subprocess.run([program, "--help"], capture_output=True, text=True)
    assert helped.returncode == 0 and helped.stdout.startswith("usage: cabinet ") and not helped.stderr


def one_at_a_time(program, folder):
    words = (folder / "store", *LSRS, *ROUTE)
    with Cabinet(program, *words) as first:
        first.port()
        before = Path(first.store).read_bytes()
        assert "another cabinet is at work with this store" in ends(program, *words, status=3)
        assert Path(first.store).read_bytes() == before and first.stored()[0].startswith("kept 0,")
        first.end()
    with Cabinet(program, *words) as second:
        second.port()


def settled(cabinet):
    """1 where it listens, 0 where it has ended, with status 3 and a line that says why."""
    deadline = time.monotonic() + 100
    while "listening " not in cabinet.said():
        if cabinet.process.poll() is not None:
            assert cabinet.process.returncode == 3 and "another cabinet" in cabinet.said(), cabinet.said()
            return 0
        assert time.monotonic() < deadline, cabinet.said()
        time.sleep(0.01)
    return 1


def made_once(program, folder):
    """Two at one moment where there is no store."""
    for i in range(10):
        store = folder / f"made{i}"
        with Cabinet(program, store, *LSRS, *ROUTE, log=f"{store}.one") as one, Cabinet(program, store, *LSRS, *ROUTE, log=f"{store}.other") as other:
            assert settled(one) + settled(other) == 1, f"{one.said()}\n{other.said()}"


def main():
    with tempfile.TemporaryDirectory() as name:
        words_are_read_first(sys.argv[1], Path(name))
        one_at_a_time(sys.argv[1], Path(name))
        made_once(sys.argv[1], Path(name))
    print(f"words.py: {len(WRONG) + len(WRONG_KEYS) + 1} command lines refused before anything is made; one cabinet at a time has a store")


main()
