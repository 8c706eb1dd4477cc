#!/usr/bin/env python3
"""Measures `dmlw replay`: makes logs with 64 and 128 MiB of data, in writes of four sectors and of 1 MiB, and images of 256 and
512 MiB, replays all of each log, and prints CPU times, the ratio to the log before of the same kind, the ratio to the plain Rust
program of bench/peer.rs, and the peak memory beside what a replay may hold: the log, the first image, the data and the image that
comes of it. Needs Python 3, and for the peer a rustc.

usage: bench/replay.py            (builds the program where needed, by ./dmlw)
"""

import tempfile

from logs import SECTOR, WRITE, writes
from measure import MIB, build, build_peer, measure

# How many sectors a write of each kind has.
KINDS = {"writes of 4 sectors": WRITE, "writes of 1 MiB": MIB // SECTOR}


def log_of(data, sectors):
    """A log with so many bytes of data, in writes of so many sectors, and how many entries it has."""
    entries = data // (sectors * SECTOR) + 1
    size = (2 + entries) * SECTOR + data
    return writes(size, entries, sectors), entries


def main():
    program = build()
    print("log                               image     CPU s  ratio  times the peer   peak MiB   of the log, both images and the data")
    with tempfile.TemporaryDirectory() as folder:
        peer = build_peer(folder)
        for kind, sectors in KINDS.items():
            before = None
            for mib in (64, 128):
                log, entries = log_of(mib * MIB, sectors)
                files = {"log": log, "first": bytes(4 * mib * MIB)}
                words = ["replay", "log", "first", "out", f"entries:{entries}"]
                ours = measure(program, words, files)
                theirs = peer and measure(peer, words, files)
                ratio = f"{ours.seconds / before:5.2f}" if before else "     "
                before = ours.seconds
                held = len(log) + 2 * len(files["first"]) + mib * MIB
                print(
                    f"{kind:20}{mib:4d} MiB {4 * mib:8d} MiB  {ours.seconds:6.2f}  {ratio}  {ours.beside(theirs)}         {ours.peak / MIB:9.1f}"
                    f"   {ours.peak / held:.2f} times"
                )


if __name__ == "__main__":
    main()
