#!/usr/bin/env python3
"""bounds: the built program at the limits of docs/FORMATS.md, each command under a bound on the memory that it may ask the system for.

  bench/bounds.py [PROGRAM]             PROGRAM: the built dmlw, else the one that ./dmlw runs; status 1 where a command ends otherwise than it has to
  bench/bounds.py --least [PROGRAM]     prints for each command the least bound under which it still ends so, in MiB

No contract can say how much memory a call asks for, so that what is reserved and never used, or copied where it could be shared, shows here alone: a bound
is at most twice the least one that was measured, or a few MiB.
"""
import os, resource, struct, subprocess, sys, tempfile

from measure import MIB, build

REQUESTS, ENTRIES, WRITES = 70_000, 400_000, 1_000
IMAGE = 512 * (1 << 20)


def opened(count):
    """A script of so many writes of one sector, which are all open before the first ends."""
    lines = [*(f"w a{it} 5 1 41" for it in range(count)), *(f"c a{it}" for it in range(count)), "close"]
    return "\n".join(["data 16", f"log {2 * count + 3}", *lines, ""])


def flushes(count):
    """The image of a log of so many flushes."""
    entry = struct.pack("<4Q", 0, 0, 1, 0).ljust(512, b"\0")
    return struct.pack("<8s3Q", b"rhswfsj\0", 1, count, 512).ljust(512, b"\0") + entry * count


def script_of_a_mark():
    head = "data 16\nlog 32\nmark "
    return head + "x" * (4_194_304 - len(head) - 7) + "\nclose\n"


def longest(line):
    """A script of 4 MiB, all of it requests that this makes of their numbers, each ended at once, over a log that is soon full."""
    lines, size = ["data 4096", "log 64"], 0
    while size < 4_194_304 - 64:
        name = f"{len(lines):x}"
        lines.append(f"{line(name, len(lines))}\nc {name}")
        size += len(lines[-1]) + 1
    return "\n".join([*lines, ""])


def ended(script):
    """How many events the lines of such a script are."""
    return script.count("\n") - 2


# What `path` says of them: its answer has a step for each sector of each request.
REFUSED = "dmlw: 2 Memory\n"

# Each is of 2,048 sectors, or 1 MiB: 200,000 of them or so.
LARGE_WRITES = longest(lambda name, number: f"w {name} {number % 2048} 2048 {number * 7 % 256:02x}")
LARGE_DISCARDS = longest(lambda name, number: f"d {name} {number % 2048} 2048")
LARGE_DATA = "data 1048576\nlog 4096\nw a 1046528 2048 41\nc a\nf b\nc b\nclose\n"
LARGE_LOG = "data 2048\nlog 1048576\nw a 0 2048 41\nc a\nclose\n"
SHARED = "data 2048\nlog 32\n" + "".join(f"w a{it} 0 2048 41\n" for it in range(WRITES))
SEATS = "data 128\nlog 323\nseats 64\n" + "".join(f"s{it} w {2 * it} 1 11\ns{it} w {2 * it + 1} 1 12 fua\ns{it} mark seat {it}\n" for it in range(64))

# Each command in turn, in one folder: the files that are put there before it, its words, the end of what it prints, and its bound in MiB.
COMMANDS = [
    ({"script": script_of_a_mark()}, "record script log", "2 2\n", 24),
    ({"script": SHARED}, "record script log", "0 0\n", 8),
    ({"script": SEATS}, "run script log", "193 321\n", 240),
    ({"script": opened(REQUESTS), "zeroes": bytes(8192)}, "record script log", f"{REQUESTS + 1} {2 * REQUESTS + 1}\n", 320),
    ({}, f"replay log zeroes out entries:{REQUESTS}", f"replayed {REQUESTS}\n", 256),
    ({}, f"judge script {2 * REQUESTS} out", "yes\n", 320),
    ({}, f"path script {2 * REQUESTS} out", "power\n", 320),
    ({"log": flushes(ENTRIES)}, "list log", f"{ENTRIES - 1} @{ENTRIES} flush\n", 256),
    ({}, "status log", f"{ENTRIES} {ENTRIES}\n", 256),
    ({}, f"replay log zeroes out entries:{ENTRIES}", f"replayed {ENTRIES}\n", 256),
    ({"script": LARGE_LOG}, "record script log", "2 2050\n", 40),
    ({}, "status log", "2 2050\n", 640),
    ({"script": LARGE_DATA, "disk": IMAGE}, "record script log", "3 2051\n", 16),
    ({}, "replay log disk disk flush", "replayed 2\n", 640),
    ({}, "judge script 4 disk", "yes\n", 640),
    ({"script": LARGE_WRITES, "zeroes": 4096 * 512}, "record script log", "0 0\n", 1024),
    ({}, f"judge script {ended(LARGE_WRITES)} zeroes", "yes\n", 1024),
    ({}, f"path script {ended(LARGE_WRITES)} zeroes", REFUSED, 1024),
    ({"script": LARGE_DISCARDS}, "record script log", "0 0\n", 1024),
    ({}, f"judge script {ended(LARGE_DISCARDS)} zeroes", "yes\n", 1024),
    ({}, f"path script {ended(LARGE_DISCARDS)} zeroes", REFUSED, 1024),
]


def put(folder, files):
    """Writes files: texts, bytes, or so many zeroes, which take no room."""
    for name, held in files.items():
        with open(f"{folder}/{name}", "wb") as it:
            if isinstance(held, int):
                it.truncate(held)
            else:
                it.write(held.encode() if isinstance(held, str) else held)


def is_met(program, folder, words, end, bound):
    """Whether a command prints this end, and no fault, or is refused as wanted, under a bound in MiB."""
    limit = bound * MIB
    ran = subprocess.run([program, *words.split(" ")], cwd=folder, capture_output=True, preexec_fn=lambda: resource.setrlimit(resource.RLIMIT_AS, (limit, limit)))
    if end == REFUSED:
        return ran.returncode > 0 and ran.stderr.endswith(REFUSED.encode()) and not ran.stdout
    return ran.returncode == 0 and not ran.stderr and ran.stdout.endswith(end.encode())


def least(program, folder, words, end):
    """The least bound that a command meets, in MiB."""
    low, high = 0, 8192
    while high - low > 1:
        middle = (low + high) // 2
        low, high = (low, middle) if is_met(program, folder, words, end, middle) else (middle, high)
    # A run that wants memory may leave a shorter log.
    is_met(program, folder, words, end, high)
    return high


def main():
    others = [it for it in sys.argv[1:] if it != "--least"]
    program = os.path.abspath(others[0]) if others else build()
    failed = 0
    with tempfile.TemporaryDirectory() as folder:
        for files, words, end, bound in COMMANDS:
            put(folder, files)
            if "--least" in sys.argv:
                print(f"{words}: {least(program, folder, words, end)} MiB, bound {bound}", flush=True)
            elif not is_met(program, folder, words, end, bound):
                failed += 1
                print(f"{words}: not done with {bound} MiB")
    print(f"bounds: {len(COMMANDS)} commands, {failed} not done")
    return 1 if failed else 0


if __name__ == "__main__":
    sys.exit(main())
