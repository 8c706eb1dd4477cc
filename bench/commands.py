#!/usr/bin/env python3
"""Measures each command of the built program once, on work that takes it about a second or less, beside the plain Rust program of bench/peer.rs that does the
same unproved, and prints one table: CPU seconds, user and system, the least of five runs; how many times the plain program's these are, and the most that they
may be; the peak memory, and the most that it may be, if there is a bound. `record` is there twice: the plain program writes the log into one list of bytes, or,
as dmlw does, over two disks in memory. The other files of bench/ measure a command each, at more sizes. Needs Python 3, and for the peer a rustc.

usage: bench/commands.py [PROGRAM]      (builds the program where none is given, by ./dmlw)
"""

import lzma
import os
import random
import struct
import sys
import tempfile

from copies import KINDS, room_of
from judge import script_of
from logs import SECTOR, writes
from measure import MIB, ROOT, build, build_peer, measure_beside
from record import large, small
from replay import log_of


def sample(name):
    with lzma.open(f"{ROOT}/examples/{name}.xz") as it:
        return it.read()


def entries_of(log):
    return struct.unpack_from("<Q", log, 16)[0]


def random_log(size):
    """A log of writes of 1 MiB of random bytes, which repeat nowhere."""
    log, entries = log_of(size, MIB // SECTOR)
    noise = random.Random(1).randbytes(MIB)
    for number in range(entries - 1):
        place = SECTOR + number * (MIB + SECTOR) + SECTOR
        log[place : place + MIB] = noise
    return log, entries


def works():
    """Of each row its name, the work, the program's words, the peer's command if it has one, the most times, the most MiB, and the files."""
    record = ["record", "script", "log"]
    yield "record", "120,000 writes of a sector", record, "record", 1.15, 110, {"script": small(4 * MIB * 120 // 134, 0).text}
    yield "record", "the same, the peer over two disks", record, "record-disks", 1.0, None, {"script": small(4 * MIB * 120 // 134, 0).text}
    yield "record", "4 MiB, a flush every 10", record, "record", 1.0, None, {"script": small(4 * MIB, 10).text}
    yield "record", "511 writes of 1 MiB", record, "record", 1.0, None, {"script": large(511).text}
    log = {"log": writes(128 * MIB, 50_000)}
    yield "list", "128 MiB, writes of 4 sectors", ["list", "log"], "list", 1.0, 16, log
    yield "status", "128 MiB, writes of 4 sectors", ["status", "log"], "status", 1.0, 16, log
    log, entries = log_of(128 * MIB, 4)
    yield "replay", "128 MiB of writes over 128 MiB", ["replay", "log", "first", "out", f"entries:{entries}"], "replay", 1.0, None, {"log": log, "first": bytes(128 * MIB)}
    log, entries = log_of(64 * MIB, 4)
    yield "replay", "64 MiB of writes over 256 MiB", ["replay", "log", "first", "out", f"entries:{entries}"], "replay", 1.0, None, {"log": log, "first": bytes(256 * MIB)}
    log = bytearray(log_of(31 * MIB, 4)[0].ljust(128 * MIB, b"\0"))
    yield "replay", "a log of 128 MiB over 32 MiB", ["replay", "log", "first", "out", f"entries:{entries_of(log)}"], "replay", 1.0, 24, {"log": log, "first": bytes(32 * MIB)}
    for kind, sectors in KINDS.items():
        log, entries = log_of(128 * MIB, sectors)
        words = ["copy", "log", "out", str(room_of(128 * MIB, entries))]
        yield "copy", f"128 MiB, {kind}, to sectors of 4,096 bytes", words, "copy", 1.0, None, {"log": log}
    log, first = sample("ext4.log"), sample("ext4.first")
    real = {"log": log, "first": first}
    yield "list", "the sample, a real log of ext4", ["list", "log"], "list", 0.5, None, real
    yield "status", "the sample", ["status", "log"], "status", 0.5, None, real
    yield "replay", "the sample", ["replay", "log", "first", "out", f"entries:{entries_of(log)}"], "replay", 0.5, None, real
    log, entries = random_log(64 * MIB)
    noise = {"log": log, "first": random.Random(2).randbytes(64 * MIB)}
    yield "status", "64 MiB of random bytes", ["status", "log"], "status", 1.25, None, noise
    yield "replay", "64 MiB of random bytes over 64 MiB of them", ["replay", "log", "first", "out", f"entries:{entries}"], "replay", 1.25, None, noise
    script, image = script_of(100_000, 65_536)
    yield "judge", "100,000 events, 32 MiB", ["judge", "script", "100000", "image"], "judge", 2.0, None, {"script": script, "image": image}
    yield "path", "100,000 events, 32 MiB", ["path", "script", "100000", "image"], None, None, None, {"script": script, "image": image}


def bound(value, form):
    return "" if value is None else form.format(value)


def main():
    program = os.path.abspath(sys.argv[1]) if sys.argv[1:] else build()
    print("| Command | Work | CPU s | Times the plain program's | At most | Peak memory, MiB | At most |\n|---|---|---|---|---|---|---|")
    with tempfile.TemporaryDirectory() as folder:
        peer = build_peer(folder)
        for command, work, words, theirs, times, mib, files in works():
            ours, plain = measure_beside([program, *words], peer and theirs and [peer, theirs, *words[1:]], files)
            held = f"{ours.peak / MIB:,.1f}"
            print(f"| `{command}` | {work} | {ours.seconds:.2f} | {ours.beside(plain).strip()} | {bound(times, '{:.2f}')} | {held} | {bound(mib, '{}')} |", flush=True)


if __name__ == "__main__":
    main()
