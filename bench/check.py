#!/usr/bin/env python3
"""Measures `plchost check` on made descriptions.

    python3 bench/check.py            # after `rt ci`, or `rt run` in crates/plchost, which leave the proved program

For accepted descriptions of 4,096, 16,384 and 65,536 fields and parts of expressions, in 64, 256 and 1,024 definitions, it prints
the nanoseconds of processor time per field or part: of the whole run, and of the checking alone, which is what the same text
takes more than without its last bracket, where it is only cut into tokens and read. Each is the least of some runs. The last
line of a kind is the ratio of the checking's time at the greatest size to that at the least.
"""
import os
import subprocess
import sys
import tempfile

TOP = os.path.dirname(os.path.dirname(os.path.abspath(__file__)))
PROGRAM = os.path.join(TOP, "crates", "plchost", "out", "plchost")
RUNS = 9
PARTS = [4096, 16384, 65536]
EACH = 64


def own_names(defs):
    """Fields that name fields of their own definition: 64 fields and parts a definition."""
    fields = "[simple uint 8 a]" + "".join(f" [virtual uint 16 v{k} 'a + {k}']" for k in range(15))
    fields += " [simple uint 8 b] [simple uint 8 c] [simple uint 8 d]"
    return "".join(f"[type T{n} {fields}]\n" for n in range(defs))


def types(defs):
    """Fields that name the last definition, and implicit ones that name fields behind them."""
    last = defs - 1
    fields = "".join(f" [simple T{last} s{k}]" for k in range(24))
    fields += "".join(f" [implicit uint 16 i{k} 's{k}.lengthInBytes']" for k in range(13)) + " [simple uint 8 z]"
    parts = [f"[type T{n}{fields}]\n" for n in range(last)]
    return "".join(parts) + f"[type T{last}{' [simple uint 8 z]'}]\n"


def run(path):
    """The processor seconds and the status of one run."""
    with open(os.devnull, "wb") as sink:
        child = subprocess.Popen([PROGRAM, "check", path], stdin=subprocess.DEVNULL, stdout=sink)
        _, status, usage = os.wait4(child.pid, 0)
        child.returncode = os.waitstatus_to_exitcode(status)
    return usage.ru_utime + usage.ru_stime, child.returncode


def least(folder, text):
    path = os.path.join(folder, "text")
    with open(path, "w") as to:
        to.write(text)
    runs = [run(path) for _ in range(RUNS)]
    return min(r[0] for r in runs), {r[1] for r in runs}


def measure(name, made, folder):
    alone = {}
    for parts in PARTS:
        text = made(parts // EACH).rstrip()
        whole, statuses = least(folder, text)
        read, _ = least(folder, text[:-1])
        alone[parts] = max(whole - read, 1e-9) / parts
        print(f"{name:10} {parts:6} parts  {whole / parts * 1e9:8.1f} ns a part  checking alone {alone[parts] * 1e9:8.1f}  "
              f"status {', '.join(map(str, sorted(statuses)))}")
    print(f"{name:10} checking's time a part at {PARTS[-1]} to that at {PARTS[0]}: {alone[PARTS[-1]] / alone[PARTS[0]]:.2f}")


def main():
    if not os.path.exists(PROGRAM):
        sys.exit("no proved program yet: run `rt ci`, or `rt run` in crates/plchost, first")
    with tempfile.TemporaryDirectory() as folder:
        measure("own names", own_names, folder)
        measure("types", types, folder)


main()
