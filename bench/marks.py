#!/usr/bin/env python3
"""Measures a search for a mark: makes logs of 75,000, 150,000 and 300,000 marks, replays each up to its last mark, and prints CPU
times and the ratio to the log before, which is 2 where the search takes time in the log's length. Needs Python 3.

usage: bench/marks.py             (builds the program where needed, by ./dmlw)
"""

from logs import MARK_BYTES, SECTOR, marks
from measure import MIB, build, measure


def main():
    program = build()
    print("marks    CPU s  ratio   peak MiB   of the log")
    before = None
    for count in (75_000, 150_000, 300_000):
        log = marks((count + 2) * SECTOR)
        text = (b"mark %d " % (count - 1) * MARK_BYTES)[:MARK_BYTES].decode()
        ours = measure(program, ["replay", "log", "first", "out", f"mark:{text}"], {"log": log, "first": bytes(SECTOR)})
        ratio = f"{ours.seconds / before:5.2f}" if before else "     "
        before = ours.seconds
        print(f"{count:7d} {ours.seconds:6.2f}  {ratio}  {ours.peak / MIB:9.1f}   {ours.peak / len(log):.2f} times")


if __name__ == "__main__":
    main()
