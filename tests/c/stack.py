#!/usr/bin/env python3
"""The most stack that each function of include/ldp_ft.h can use, from the frames in the archive's disassembly along the calls that they make; fails above LDP_FT_STACK.

Counted: every push and every subtraction from the stack pointer in a function, whether or not both lie on one path, the return address of each call, and no frame of
memset and memcpy, which are the C library's. Nothing in the archive calls through a pointer or calls itself: that is looked at too.
"""
import re
import subprocess
import sys
from pathlib import Path

TOP = Path(__file__).resolve().parents[2]
OUTSIDE = {"memcpy", "memset"}
RETURN_ADDRESS = 8


def read_functions(archive):
    """{function: (bytes of its frame, the functions it calls or jumps to)}"""
    command = ["objdump", "--disassemble", "--reloc", "--no-show-raw-insn", str(archive)]
    frames, calls, name = {}, {}, None
    for line in subprocess.run(command, check=True, capture_output=True, text=True).stdout.splitlines():
        if head := re.match(r"[0-9a-f]+ <(.*)>:$", line):
            name = head[1]
            frames[name], calls[name] = 0, set()
        elif re.search(r"\tpush ", line):
            frames[name] += 8
        elif grown := re.search(r"\tsub +\$0x([0-9a-f]+),%rsp", line) or re.search(r"\tadd +\$0xf{8}([0-9a-f]{8}),%rsp", line):
            frames[name] += int(grown[1], 16) if "\tsub" in line else 2**32 - int(grown[1], 16)
        elif re.search(r"\tcall +\*|\tsub +%r\w+,%rsp|\tand .*,%rsp|\tenter", line):
            sys.exit(f"stack.py: {name}: the stack of this is not counted: {line.strip()}")
        elif called := re.search(r"R_X86_64_PLT32\t(?:\.text\.)?(.*)-0x4$", line):
            calls[name].add(called[1])
    return frames, calls


def deepest(name, frames, calls, above=()):
    """The bytes of stack from a call of `name` on, its return address among them."""
    if name in above:
        sys.exit(f"stack.py: {name} calls itself")
    if name in OUTSIDE:
        return RETURN_ADDRESS
    below = max((deepest(n, frames, calls, (*above, name)) for n in calls[name]), default=0)
    return RETURN_ADDRESS + frames[name] + below


def main():
    archive = Path(sys.argv[1]) if len(sys.argv) > 1 else TOP / "target/staticlib/libldp_ft.a"
    bound = int(re.search(r"#define LDP_FT_STACK (\d+)", (TOP / "include/ldp_ft.h").read_text())[1])
    frames, calls = read_functions(archive)
    outside = set().union(*calls.values()) - set(frames)
    if outside - OUTSIDE:
        sys.exit(f"stack.py: the archive needs more than {sorted(OUTSIDE)}: {sorted(outside - OUTSIDE)}")
    depths = {name: deepest(name, frames, calls) for name in frames if name.startswith("ldp_ft_")}
    worst = max(depths, key=depths.get)
    if depths[worst] > bound:
        sys.exit(f"stack.py: {worst} can use {depths[worst]} bytes of stack, and LDP_FT_STACK is {bound}")
    listed = ", ".join(f"{n} {d}" for n, d in sorted(depths.items(), key=lambda p: -p[1])[:4])
    print(f"stack.py: of {len(depths)} calls none uses more than {depths[worst]} bytes of stack (LDP_FT_STACK {bound}): {listed}, ..; needed: {', '.join(sorted(outside))}")


main()
