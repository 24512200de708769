#!/usr/bin/env python3
"""Measures `plchost print` on made descriptions.

    python3 bench/print.py            # after `rt ci`, or `rt run` in crates/plchost, which leave the proved program

For accepted descriptions of three kinds and some sizes, it prints the nanoseconds of processor time per byte of the text (the
least of some runs, that of an empty description taken off), the peak memory per byte of the text, and the ratio of the time per
byte at the greatest size to that at the least. A description has at most 1,024 definitions of 256 fields, and 65,536 fields and
parts of expressions: so names are long where a text is to be longer, and deep expressions end at 96 KiB.
"""
import os
import subprocess
import sys
import tempfile

TOP = os.path.dirname(os.path.dirname(os.path.abspath(__file__)))
PROGRAM = os.path.join(TOP, "crates", "plchost", "out", "plchost")
KIB = 1 << 10
SIZES = [64, 256, 1024]
DEEP_SIZES = [6, 24, 96]
RUNS = 9
DEEPEST = 32


def definitions(room):
    """Definitions of some fields each, 1,024 at most, with names of up to 100 bytes."""
    parts, length = [], 0
    long = "n" * 100
    while True:
        n = len(parts)
        fields = "".join(f" [simple uint 8 {long}{k}]" for k in range(6))
        part = f"[type T{n}{fields} [array byte v count '{long}0 + 1']]\n"
        if length + len(part) > room or n == 1024:
            return "".join(parts)
        parts.append(part)
        length += len(part)


def expressions(room):
    """Definitions of 64 fields each, whose expressions are of the greatest depth."""
    deep = "-" * (DEEPEST - 1) + "a"
    parts, length = [], 0
    while True:
        fields = "".join(f" [virtual int 64 v{k} '{deep}']" for k in range(64))
        part = f"[type T{len(parts)} [simple uint 8 a]{fields}]\n"
        if length + len(part) > room:
            return "".join(parts)
        parts.append(part)
        length += len(part)


def parentheses(room):
    """One expression in as many parentheses as there is room for."""
    head, tail = "[type T [simple uint 8 a] [virtual int 32 v '", "']]\n"
    count = (room - len(head) - len(tail) - 1) // 2
    return head + "(" * count + "a" + ")" * count + tail


def run(path):
    """The processor seconds, the peak KiB and the status of one run."""
    with open(os.devnull, "wb") as sink:
        child = subprocess.Popen([PROGRAM, "print", path], stdin=subprocess.DEVNULL, stdout=sink)
        _, status, usage = os.wait4(child.pid, 0)
        child.returncode = os.waitstatus_to_exitcode(status)
    return usage.ru_utime + usage.ru_stime, usage.ru_maxrss, child.returncode


def least(path):
    runs = [run(path) for _ in range(RUNS)]
    return min(r[0] for r in runs), max(r[1] for r in runs), {r[2] for r in runs}


def measure(name, made, folder, base, sizes):
    per_byte = {}
    for size in sizes:
        path = os.path.join(folder, f"{name.replace(' ', '_')}{size}")
        text = made(size * KIB)
        with open(path, "w") as to:
            to.write(text)
        seconds, memory, statuses = least(path)
        spent = max(seconds - base[0], 1e-9)
        per_byte[size] = spent / len(text)
        more = max(memory - base[1], 0) * KIB
        print(f"{name:16} {size:5} KiB  {spent / len(text) * 1e9:8.1f} ns a byte  "
              f"{more / len(text):6.1f} bytes of memory a byte  status {', '.join(map(str, sorted(statuses)))}")
    print(f"{name:16} time per byte at {sizes[-1]} KiB to that at {sizes[0]} KiB: {per_byte[sizes[-1]] / per_byte[sizes[0]]:.2f}")


def main():
    if not os.path.exists(PROGRAM):
        sys.exit("no proved program yet: run `rt ci`, or `rt run` in crates/plchost, first")
    with tempfile.TemporaryDirectory() as folder:
        empty = os.path.join(folder, "empty")
        open(empty, "w").close()
        base = least(empty)
        measure("definitions", definitions, folder, base, SIZES)
        measure("deep expressions", expressions, folder, base, DEEP_SIZES)
        measure("parentheses", parentheses, folder, base, SIZES)


main()
