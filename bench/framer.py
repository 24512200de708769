#!/usr/bin/env python3
"""Measures the framer: a stream of Modbus frames, in pieces of one size, cut into frames again.

    python3 bench/framer.py            # after `rt ci`, which leaves the proved program `framer_bench`

For pieces of 1, 7 and 4,096 bytes it prints, for streams of 250,000 and 1,000,000 frames of 12 bytes, the nanoseconds of processor
time per byte of the stream (the least of five runs, that of a stream without frames taken off) and the greatest resident memory, and
the ratio of the time per byte of the longer stream to that of the shorter one.
"""
import os
import subprocess
import sys

TOP = os.path.dirname(os.path.dirname(os.path.abspath(__file__)))
PROGRAM = os.path.join(TOP, "crates", "framer_bench", "out", "framer_bench")
FRAMES = [250_000, 1_000_000]
FRAME_BYTES = 12
PIECES = [1, 7, 4096]
RUNS = 5


def run(frames, piece):
    """The processor seconds and the greatest resident memory, in KiB, of one run."""
    child = subprocess.Popen([PROGRAM, str(frames), str(piece)], stdout=subprocess.PIPE)
    said = child.stdout.read().decode()
    _, status, usage = os.wait4(child.pid, 0)
    child.returncode = os.waitstatus_to_exitcode(status)
    if child.returncode != 0 or said != f"{frames} frames\n":
        sys.exit(f"{frames} frames in pieces of {piece}: status {child.returncode}, {said!r}")
    return usage.ru_utime + usage.ru_stime, usage.ru_maxrss


def least(frames, piece):
    runs = [run(frames, piece) for _ in range(RUNS)]
    return min(seconds for seconds, _ in runs), max(memory for _, memory in runs)


def main():
    if not os.path.exists(PROGRAM):
        sys.exit("no proved program yet: run `rt ci` first")
    for piece in PIECES:
        empty, _ = least(0, piece)
        each = []
        for frames in FRAMES:
            seconds, memory = least(frames, piece)
            each.append((seconds - empty) / (frames * FRAME_BYTES))
            print(f"pieces of {piece:4} bytes  {frames:9,} frames  {each[-1] * 1e9:6.1f} ns a byte  {memory / 1024:5.1f} MiB")
        print(f"pieces of {piece:4} bytes  time per byte of the longer to the shorter stream: {each[1] / each[0]:.2f}")


if __name__ == "__main__":
    main()
