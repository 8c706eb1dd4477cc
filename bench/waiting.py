#!/usr/bin/env python3
"""waiting: measures `dmlw record` where many requests wait: writes that no flush follows, FUA writes among them, and flushes that end late.

  bench/waiting.py [PROGRAM] [--runs N]
        Runs the program on such scripts, each of a size and of twice that size, and prints CPU times (the least of N runs, else 3), the growth, the ratio to
        the plain Rust program of bench/peer.rs, which keeps the same order, and the peak memory. Twice the work may take 2.3 times as long; if more, the row
        says so, and the status is 1. Without PROGRAM it takes the one that ./dmlw runs, built where needed. Needs Python 3, and for the peer a rustc.
"""

import sys
import tempfile

from measure import MIB, build, build_peer, measure_beside

DATA_SECTORS = 1048576
LIMIT = 2.3
# Sectors between two writes that are spread over the device.
APART = 10


def submitted(name, first, options=""):
    """The submission of a write of a sector."""
    return f"w {name} {first} 1 5a{options}\n"


def request(name, first, options=""):
    """A write of a sector, which is ended at once."""
    return submitted(name, first, options) + f"c {name}\n"


def plain(count, apart=1):
    """`count` plain writes, each of a sector of its own."""
    return [request(f"r{n}", n * apart) for n in range(count)]


def chained(count):
    """`count` plain writes of one sector, and a FUA write of it, to which each of them is linked."""
    return [request(f"r{n}", 5) for n in range(count)] + [request("last", 5, " fua")]


def flushed(count):
    """`count` plain writes, and a flush, which takes all of them."""
    return plain(count) + ["f last\nc last\n"]


def opened(count):
    """`count` flushes that are open, as many plain writes, and then the ends of the flushes, which take none of them."""
    return [f"f f{n}\n" for n in range(count)] + plain(count) + [f"c f{n}\n" for n in range(count)]


def staggered(count):
    """`count` times a plain write and a flush that stays open, and then the ends of the flushes, which each take one write."""
    return [request(f"r{n}", n) + f"f f{n}\n" for n in range(count)] + [f"c f{n}\n" for n in range(count)]


def among(count, shift):
    """`count` plain writes over the device, and a quarter as many FUA writes, each `shift` sectors behind one of them."""
    return plain(count, APART) + [request(f"u{n}", 4 * n * APART + shift, " fua") for n in range(count // 4)]


# Each kind's lines, and the smaller of its two sizes.
KINDS = {
    "waiting": (plain, 30_000),
    "and 2,000 plain writes more": (lambda count: plain(count + 2_000), 30_000),
    "and 2,000 FUA writes beyond": (lambda count: plain(count) + [request(f"u{n}", count + n, " fua") for n in range(2_000)], 30_000),
    "of one sector, and a FUA write": (chained, 30_000),
    "and a flush": (flushed, 30_000),
    "flushes open, then their ends": (opened, 20_000),
    "flushes staggered": (staggered, 20_000),
    "FUA writes of other sectors": (lambda count: among(count, 1), 20_000),
    "FUA writes that each meet one": (lambda count: among(count, 0), 20_000),
}


def script(lines):
    """The script of these requests, over a log that has room for them."""
    return f"data {DATA_SECTORS}\nlog {3 + 2 * len(lines)}\n{''.join(lines)}close\n".encode()


def main():
    words = sys.argv[1:]
    runs = int(words.pop(words.index("--runs") + 1)) if "--runs" in words else 3
    words = [word for word in words if word != "--runs"]
    program = words[0] if words else build()
    over = []
    print("waiting  kind                              CPU s  growth  times the peer  peak MiB")
    with tempfile.TemporaryDirectory() as folder:
        peer = build_peer(folder)
        for kind, (lines, least) in KINDS.items():
            before = None
            for size in (least, 2 * least):
                files = {"script": script(lines(size))}
                plain = peer and [peer, "record-disks", "script", "log"]
                ours, theirs = measure_beside([program, "record", "script", "log"], plain, files, runs)
                growth = ours.seconds / before if before else 0
                if LIMIT < growth:
                    over.append(kind)
                shown = f"{growth:6.2f}" if before else "      "
                before = ours.seconds
                print(f"{size:7d}  {kind:32} {ours.seconds:6.2f}  {shown}  {ours.beside(theirs):>14}  {ours.peak / MIB:8.1f}", flush=True)
    for kind in over:
        print(f"more than {LIMIT} times for twice the work: {kind}")
    return 1 if over else 0


if __name__ == "__main__":
    sys.exit(main())
