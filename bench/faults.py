#!/usr/bin/env python3
"""Runs `plchost` with each of its allocations, reads, writes and openings failing in turn.

    python3 bench/faults.py            # after `rt ci`, or `rt run` in crates/plchost, which leave the proved program

A run whose allocation fails must put out a front of what the run without a fault puts out, whole lines of it, then `no memory`,
with status 8; or all of it, with the status of that run, where it did without. One whose read or opening of FILE fails must say `file fault`,
with status 3; one whose read of the input fails must put out a front and then `read fault`, with status 4, or all of it where a
line was refused before; and one whose write fails must put out a front, with status 5. A small C library (`faults.c`) that is
loaded before the C library lets a call fail.
"""
import os
import subprocess
import sys
import tempfile

TOP = os.path.dirname(os.path.dirname(os.path.abspath(__file__)))
PROGRAM = os.path.join(TOP, "crates", "plchost", "out", "plchost")
HEAD = "table 16 8 1 64 60000 60000\nask 1 0\n"
ROUND = "submit 1 1 {n} 1000 {aa}\nsend\nframe {size:04x}{reference:04x}{aa}\ncollect 1 {n}\n"
LAST = {3: b"file fault\n", 4: b"read fault\n", 5: b"", 8: b"no memory\n"}
WANTED = {"alloc": {8}, "read": {3, 4}, "write": {5}, "open": {3}}


def rounds(count, payload):
    """A script whose rounds submit, send, answer and collect a request."""
    made = [
        ROUND.format(n=n, aa="aa" * payload, size=payload + 4, reference=(n - 1) % 16 + 1)
        for n in range(1, count + 1)
    ]
    return HEAD + "".join(made)


CASES = [
    ("decode, one value", ["decode", "p", "P"], b"\1\0\2"),
    ("decode, 30,001 bytes", ["decode", "p", "P"], bytes(i % 251 for i in range(30001))),
    ("decode, a text outside the form", ["decode", "bad", "P"], b""),
    ("decode, a type that isn't there", ["decode", "p", "Q"], b""),
    ("print, two fields", ["print", "p"], b""),
    ("print, the description of Modbus", ["print", "modbus.mspec"], b""),
    ("print, a text that leaves the language", ["print", "wrong"], b""),
    ("replay, one request", ["replay"], rounds(1, 1).encode()),
    ("replay, a cancelled request and a refused line",
     ["replay"], (HEAD + "submit 1 1 0 1000 AA\ncancel 1 1\ncollect 1 1\nsends\n").encode()),
    ("replay, a missing line", ["replay"], b""),
    ("replay, waiters, time and a shutdown", ["replay"], (
        "table 16 8 1 64 100 50\nask 1 0\nask 2 10\nsubmit 1 1 10 1000 AA\nsubmit 1 1 10 20 AA\nsend\ntick 30\nrelease 1 1 40\n"
        "poll 2 2\nsubmit 2 2 40 1000 AA\nshutdown 2\ncollect 2 3\n").encode()),
    ("replay, 15 requests", ["replay"], rounds(15, 1).encode()),
    ("replay, 15 requests of 4,092 bytes", ["replay"], rounds(15, 4092).encode()),
]


def run(folder, words, given, kind, at):
    """The status, what was put out and how many calls of the kind there were."""
    count = os.path.join(folder, "count")
    env = {"LD_PRELOAD": os.path.join(folder, "faults.so"), "KIND": kind, "AT": str(at), "COUNT": count}
    ran = subprocess.run([PROGRAM, *words], input=given, stdout=subprocess.PIPE, cwd=folder, env=env)
    with open(count) as text:
        return ran.returncode, ran.stdout, int(text.read())


def is_front(status, out, whole):
    """Whether a run with this status put out a front of the text, and then its last line."""
    last = LAST[status]
    front = out[:len(out) - len(last)]
    whole_lines = status != 8 or not front or front.endswith(b"\n")
    return out.endswith(last) and whole.startswith(front) and whole_lines


def check(folder, name, words, given, kind):
    """Runs a case with each call of a kind failing, and tells what came of it."""
    status, whole, count = run(folder, words, given, kind, 0)
    came = {}
    for at in range(1, count + 1):
        ended, out, _ = run(folder, words, given, kind, at)
        if ended in WANTED[kind] and is_front(ended, out, whole):
            came[f"status {ended}"] = came.get(f"status {ended}", 0) + 1
        elif (kind == "alloc" or (kind, status) == ("read", 10)) and (ended, out) == (status, whole):
            came["all"] = came.get("all", 0) + 1
        else:
            sys.exit(f"{name}: {kind} {at} of {count} failing gave status {ended} and {out[-200:]!r}")
    return f"{kind} {count}" + "".join(f", {times} times {what}" for what, times in sorted(came.items()))


def main():
    if not os.path.exists(PROGRAM):
        sys.exit("no proved program yet: run `rt ci`, or `rt run` in crates/plchost, first")
    with tempfile.TemporaryDirectory() as folder:
        source = os.path.join(TOP, "bench", "faults.c")
        library = os.path.join(folder, "faults.so")
        subprocess.run(["cc", "-O2", "-shared", "-fPIC", "-o", library, source], check=True)
        with open(os.path.join(TOP, "checks", "modbus.mspec")) as text:
            modbus = text.read()
        texts = [
            ("p", "[type P [simple uint 8 a] [simple uint 16 b]]"),
            ("bad", "[type P [simple uint 24 a]]"),
            ("wrong", "[type P [simple uint 8 a] [manual uint 8 b]]"),
            ("modbus.mspec", modbus),
        ]
        for name, text in texts:
            with open(os.path.join(folder, name), "w") as file:
                file.write(text)
        for name, words, given in CASES:
            print(f"{name}: " + "; ".join(check(folder, name, words, given, kind) for kind in WANTED))


main()
