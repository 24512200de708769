#!/usr/bin/env python3
"""Measures `plchost decode` on made input, beside a small C program for the same work.

    python3 bench/decode.py            # after `rt ci`, or `rt run` in crates/plchost, which leave the proved program

For 1, 4 and 16 MiB it prints the bytes per second of processor time (the least of five runs, the empty run's taken
off), the peak memory, and the ratio of the time per byte at 16 MiB to that at 1 MiB. The C program is compiled with
`cc -O2`, and left out where there is no compiler.
"""
import os
import shutil
import subprocess
import sys
import tempfile

TOP = os.path.dirname(os.path.dirname(os.path.abspath(__file__)))
PROGRAM = os.path.join(TOP, "crates", "plchost", "out", "plchost")
MIB = 1 << 20
SIZES = [1, 4, 16]
RUNS = 5


def run(command, path):
    """The processor seconds and the status of one run."""
    with open(path, "rb") as stdin, open(os.devnull, "wb") as sink:
        child = subprocess.Popen(command, stdin=stdin, stdout=sink)
        _, status, usage = os.wait4(child.pid, 0)
        child.returncode = os.waitstatus_to_exitcode(status)
    return usage.ru_utime + usage.ru_stime, child.returncode


def least(command, path):
    """The least processor seconds of some runs, and the status of the first."""
    runs = [run(command, path) for _ in range(RUNS)]
    return min(seconds for seconds, _ in runs), runs[0][1]


def peak(command, path):
    """The peak KiB of one run, as the system told it last before the run ended."""
    highest = 0
    with open(path, "rb") as stdin, open(os.devnull, "wb") as sink:
        child = subprocess.Popen(command, stdin=stdin, stdout=sink)
        while child.poll() is None:
            with open(f"/proc/{child.pid}/status") as lines:
                told = [int(line.split()[1]) for line in lines if line.startswith("VmHWM:")]
            highest = max([highest, *told])
    return highest


def measure(name, command, folder):
    empty = os.path.join(folder, "empty")
    open(empty, "wb").close()
    base, _ = least(command, empty)
    per_byte = {}
    for size in SIZES:
        path = os.path.join(folder, f"{size}")
        seconds, status = least(command, path)
        spent = max(seconds - base, 1e-9)
        per_byte[size] = spent / (size * MIB)
        memory = peak(command, path) / 1024
        print(f"{name:8} {size:3} MiB  {size * MIB / spent / 1e6:8.2f} MB/s  peak {memory:7.1f} MiB  status {status}")
    print(f"{name:8} time per byte at 16 MiB to that at 1 MiB: {per_byte[16] / per_byte[1]:.2f}")
    return per_byte


def main():
    if not os.path.exists(PROGRAM):
        sys.exit("no proved program yet: run `rt ci`, or `rt run` in crates/plchost, first")
    with tempfile.TemporaryDirectory() as folder:
        description = os.path.join(folder, "p")
        with open(description, "w") as text:
            text.write("[type P [simple uint 8 a] [simple uint 16 b]]\n")
        block = bytes((7 * i + 3) % 256 for i in range(4096))
        for size in SIZES:
            with open(os.path.join(folder, f"{size}"), "wb") as made:
                made.write(block * (size * MIB // len(block)))
        ours = measure("plchost", [PROGRAM, "decode", description, "P"], folder)
        compiler = shutil.which("cc")
        if compiler is None:
            print("no C compiler: nothing to compare with")
            return
        binary = os.path.join(folder, "decode")
        subprocess.run([compiler, "-O2", "-o", binary, os.path.join(TOP, "bench", "decode.c")], check=True)
        theirs = measure("C", [binary], folder)
        print(f"plchost's time per byte to C's at 16 MiB: {ours[16] / theirs[16]:.1f}")


main()
