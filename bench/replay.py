#!/usr/bin/env python3
"""Measures `plchost replay` on scripts.

    python3 bench/replay.py            # after `rt ci`, or `rt run` in crates/plchost, which leave the proved program

For scripts of 1,000, 10,000 and 100,000 lines it prints the lines per second of processor time (the least of some runs, that of
a script of one line taken off), and the ratio of the time per line at 100,000 lines to that at 1,000. In the first kind one request
is live at a time, in the second 64 are. A last script has 1,000 lines with payloads of 4,092 bytes, the longest that the raw wire
admits.
"""
import os
import subprocess
import sys
import tempfile

TOP = os.path.dirname(os.path.dirname(os.path.abspath(__file__)))
PROGRAM = os.path.join(TOP, "crates", "plchost", "out", "plchost")
LINES = [1000, 10_000, 100_000]
REFERENCES = 64
RUNS = 5
HEAD = [f"table {REFERENCES} 64 1 262144 86400000 86400000", "ask 1 0"]


def rounds(lines, live, payload):
    """A script of about so many lines: so many requests submitted, sent, answered in order and collected, again and again."""
    made, hex_text, first = list(HEAD), "aa" * payload, 0
    while len(made) + 4 * live <= lines:
        made += [f"submit 1 1 {first} 3600000 {hex_text}"] * live
        made += ["send"] * live
        for k in range(live):
            reference = (first + k) % REFERENCES + 1
            made.append(f"frame {payload + 4:04x}{reference:04x}{hex_text}")
        made += [f"collect 1 {first + k + 1}" for k in range(live)]
        first += live
    return made


def seconds(path):
    """The processor seconds, the status and the last line of one run."""
    with open(path, "rb") as stdin, open(path + ".out", "wb") as sink:
        child = subprocess.Popen([PROGRAM, "replay"], stdin=stdin, stdout=sink)
        _, status, usage = os.wait4(child.pid, 0)
        child.returncode = os.waitstatus_to_exitcode(status)
    with open(path + ".out", "rb") as said:
        last = said.read().splitlines()[-1].decode()
    return usage.ru_utime + usage.ru_stime, child.returncode, last


def least(folder, lines):
    path = os.path.join(folder, "script")
    with open(path, "w") as text:
        text.write("\n".join(lines) + "\n")
    runs = [seconds(path) for _ in range(RUNS)]
    return min(run[0] for run in runs), runs[0][1], runs[0][2]


def main():
    if not os.path.exists(PROGRAM):
        sys.exit("no proved program yet: run `rt ci`, or `rt run` in crates/plchost, first")
    with tempfile.TemporaryDirectory() as folder:
        base, _, _ = least(folder, HEAD[:1])
        for live in [1, 64]:
            per_line = {}
            for count in LINES:
                made = rounds(count, live, 1)
                spent, status, last = least(folder, made)
                spent = max(spent - base, 1e-9)
                per_line[count] = spent / len(made)
                print(f"{live:2} live  {len(made):7} lines  {len(made) / spent:10.0f} lines a second  status {status}  `{last}`")
            print(f"{live:2} live  time per line at 100,000 lines to that at 1,000: {per_line[LINES[-1]] / per_line[LINES[0]]:.2f}")
        made = rounds(1000, 1, 4092)
        spent, status, last = least(folder, made)
        print(f"payloads of 4,092 bytes  {len(made)} lines  {len(made) / max(spent - base, 1e-9):10.0f} lines a second  status {status}  `{last}`")


main()
