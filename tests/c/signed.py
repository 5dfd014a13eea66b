#!/usr/bin/env python3
"""signed.py CABINET: two example cabinets with TCP MD5 signatures (RFC 2385), on loopback addresses: with a wrong key, or with a key at one end alone, no connection comes to stand;
with the right one the session is up. Where the kernel does not sign, the cabinet refuses to begin with a key, and a line says that no more was tried.
"""
import socket
import struct
import subprocess
import sys
import tempfile
from pathlib import Path

sys.dont_write_bytecode = True
from cabinets import Cabinet

OURS, PEERS = "127.0.0.1", "127.0.0.2"
TCP_MD5SIG = 14


def listening(program, store, key):
    return Cabinet(program, store, "10.255.0.1", "10.255.0.2", "listen", OURS, PEERS, 0, 60, 30, key=key)


def connecting(program, store, port, keepalive_time, key):
    return Cabinet(program, store, "10.255.0.2", "10.255.0.1", "connect", PEERS, OURS, port, keepalive_time, 30, key=key)


def stays_down(program, folder, keys):
    """The end that connects gives up after its KeepAlive time, a second; the other has seen nothing of it."""
    with listening(program, folder / "a", keys[0]) as a, connecting(program, folder / "b", a.port(), 1, keys[1]) as b:
        b.wait("connection closed: nothing came for the KeepAlive time")
        assert "up " not in a.said() + b.said() and "connection" not in a.said(), f"{a.said()}\n{b.said()}"


def comes_up(program, folder, key):
    with listening(program, folder / "a", key) as a, connecting(program, folder / "b", a.port(), 60, key) as b:
        a.tell("give 100 10.1.0.0/24")
        b.wait_stored("label 100 of 10.1.0.0/24 using")
        a.wait_stored("label 100 of 10.1.0.0/24 given")


def kernel_signs():
    """Asked of the kernel itself, so that a cabinet that asks wrongly is not taken for a kernel that does not sign."""
    key = b"key"
    address = struct.pack("=H2x4s", socket.AF_INET, socket.inet_aton(PEERS)).ljust(128, b"\0")
    with socket.socket() as s:
        try:
            s.setsockopt(socket.IPPROTO_TCP, TCP_MD5SIG, address + struct.pack("=BBHi", 0, 0, len(key), 0) + key.ljust(80, b"\0"))
        except OSError:
            return False
    return True


def refuses(program, folder, key):
    words = [program, "--md5", key, folder / "a", "10.255.0.1", "10.255.0.2", "connect", OURS, PEERS, "1"]
    begun = subprocess.run(words, input="quit\n", capture_output=True, text=True, timeout=100)
    assert begun.returncode == 2 and "this kernel does not sign" in begun.stderr, begun


def main():
    program = sys.argv[1]
    with tempfile.TemporaryDirectory() as name:
        folder = Path(name)
        right, wrong = folder / "right", folder / "wrong"
        right.write_text("a key of the lifts\n")
        wrong.write_text("a key of the lift\n")
        if not kernel_signs():
            refuses(program, folder, right)
            print("signed.py: NOT TRIED: this kernel does not sign TCP segments (RFC 2385); the cabinet refuses to begin with a key")
            return
        for keys in ((right, wrong), (right, None), (None, right)):
            stays_down(program, folder, keys)
        comes_up(program, folder, right)
    print("signed.py: signed with the right key the session is up; with a wrong key, or one at one end alone, no connection stands")


main()
