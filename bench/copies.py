#!/usr/bin/env python3
"""Measures `dmlw copy` on logs with 64, 128 and 256 MiB of data, in writes of 16 sectors and of 1 MiB, and `dmlw record` with log sectors of 4,096 bytes beside 512 on
the same requests. Prints CPU times, the ratio to the log before of the same kind, the ratio to the plain Rust program of bench/peer.rs, and the peak memory beside
the two logs; of `record` the CPU time for each byte of the log, and how many times that with 512 it is. Needs Python 3, and for the peer a rustc.

usage: bench/copies.py [PROGRAM]    (builds the program where none is given, by ./dmlw)
"""

import os
import sys
import tempfile

from logs import SECTOR
from measure import MIB, build, build_peer, measure
from replay import log_of

LARGE = 4096

# How many sectors a write of each kind has.
KINDS = {"writes of 16 sectors": 16, "writes of 1 MiB": MIB // SECTOR}


def room_of(data, entries):
    """How many sectors of 512 bytes a log of so many entries and bytes of data takes, with log sectors of 4,096 bytes."""
    return ((2 + entries) * LARGE + data) // SECTOR


def copies(program, peer):
    print("log                               CPU s  ratio  times the peer   peak MiB   of both logs")
    for kind, sectors in KINDS.items():
        before = None
        for mib in (64, 128, 256):
            log, entries = log_of(mib * MIB, sectors)
            room = room_of(mib * MIB, entries)
            words = ["copy", "log", "out", str(room)]
            ours = measure(program, words, {"log": log})
            theirs = peer and measure(peer, words, {"log": log})
            ratio = f"{ours.seconds / before:5.2f}" if before else "     "
            before = ours.seconds
            held = len(log) + room * SECTOR
            print(f"{kind:22}{mib:5d} MiB  {ours.seconds:6.2f}  {ratio}  {ours.beside(theirs)}         {ours.peak / MIB:9.1f}   {ours.peak / held:.2f} times", flush=True)


def script_of(requests, word):
    """A script of so many writes of 8 sectors, with a flush every 10, and the bytes of the log that it leaves."""
    size = LARGE if word else SECTOR
    lines, entries = [], 0
    for number in range(requests):
        lines.append(f"w r{number} {8 * number % 1048576} 8 5a\nc r{number}\n")
        entries += size + 8 * SECTOR
        if number % 10 == 9:
            lines.append(f"f f{number}\nc f{number}\n")
            entries += size
    log = (entries + 3 * size) // SECTOR
    return f"data 1048576\nlog {log}{word}\n{''.join(lines)}close\n".encode(), log * SECTOR


def records(program):
    print("record, 50,000 writes of 8 sectors, a flush every 10: log sectors, CPU s, log MiB, CPU ns for each byte of the log")
    each = []
    for word in ("", " 4096"):
        script, log = script_of(50_000, word)
        ours = measure(program, ["record", "script", "log"], {"script": script})
        each.append(ours.seconds / log)
        print(f"{word.strip() or 512:>5}  {ours.seconds:6.2f}  {log / MIB:7.1f}  {1e9 * each[-1]:6.3f}", flush=True)
    print(f"times that with 512: {each[1] / each[0]:.2f}")


def main():
    program = os.path.abspath(sys.argv[1]) if sys.argv[1:] else build()
    with tempfile.TemporaryDirectory() as folder:
        copies(program, build_peer(folder))
    records(program)


if __name__ == "__main__":
    main()
