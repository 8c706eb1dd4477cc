#!/usr/bin/env python3
"""Measures `dmlw run`: scripts of 1, 2, 4 and 8 seats, of plain writes with a flush each 100 calls, and of FUA writes alone. Prints for each the CPU time, the ratio to the plain Rust
program of bench/seats.rs, which has the same three locks over the same lists and disks, the calls a second of a clock, and the memory of a call; then the CPU time of
20,000 turns of two threads that do nothing else, and of `dmlw record` for the FUA writes. CPU times and the clock's are the least of N runs, in turns with the peer's. Needs Python 3, and for the peer a rustc.

usage: bench/run.py [PROGRAM] [--runs N]    (PROGRAM: the built dmlw, else it is built by ./dmlw; N: 5 if not given)
       bench/run.py [PROGRAM] --many    (64 seats of 1,000 FUA writes, within 60 seconds)
"""
import os
import shutil
import subprocess
import sys
import tempfile
import time

from measure import ROOT, RUNS, base, build, measure, measure_beside

CALLS = {"plain": 100_000, "fua": 20_000}


def script(kind, seats, calls):
    """A script of so many calls in all: each seat writes sectors of its own."""
    own = calls // seats
    lines = [f"data {calls}", f"log {2 * calls + 4}", f"seats {seats}"]
    for place in range(own):
        for seat in range(seats):
            first = seat * own + place
            if kind == "fua":
                lines.append(f"s{seat} w {first} 1 5a fua")
            elif place % 100 == 99:
                lines.append(f"s{seat} f")
            else:
                lines.append(f"s{seat} w {first} 1 5a")
    return ("\n".join(lines) + "\n").encode()


def peer_of(folder):
    rustc = shutil.which("rustc")
    if rustc is None:
        return None
    subprocess.run([rustc, "--edition", "2021", "-O", "-o", f"{folder}/seats", f"{ROOT}/bench/seats.rs"], check=True)
    return f"{folder}/seats"


def many(program):
    text = script("fua", 64, 64_000)
    with tempfile.TemporaryDirectory() as folder:
        with open(f"{folder}/script", "wb") as it:
            it.write(text)
        begun = time.monotonic()
        subprocess.run([program, "run", "script", "log"], cwd=folder, check=True, stdout=subprocess.DEVNULL, timeout=60)
        print(f"64 seats of 1,000 FUA writes: {time.monotonic() - begun:.1f} s")


def main():
    words = sys.argv[1:]
    runs = int(words.pop(words.index("--runs") + 1)) if "--runs" in words else RUNS
    named = [it for it in words if not it.startswith("--")]
    program = os.path.abspath(named[0]) if named else build()
    if "--many" in words:
        return many(program)
    always = base(program)
    with tempfile.TemporaryDirectory() as folder:
        peer = peer_of(folder)
        print("| calls | seats | CPU s | times the peer's | calls a second | times the peer's | bytes a call |")
        print("|---|---|---|---|---|---|---|")
        for kind, calls in CALLS.items():
            for seats in (1, 2, 4, 8):
                text = script(kind, seats, calls)
                ours, theirs = measure_beside([program, "run", "script", "log"], peer and [peer, "script", "log"], {"script": text}, runs)
                rate = f"{theirs.clock / ours.clock:.2f}" if theirs else ""
                memory = (ours.peak - always) / calls
                print(f"| {kind} | {seats} | {ours.seconds:.2f} | {ours.beside(theirs).strip()} | {calls / ours.clock:,.0f} | {rate} | {memory:.0f} |", flush=True)
        count = CALLS["fua"]
        lines = [f"data {count}", f"log {2 * count + 4}", *(line for place in range(count) for line in (f"w r{place} {place} 1 5a fua", f"c r{place}")), "close"]
        alone = measure(program, ["record", "script", "log"], {"script": ("\n".join(lines) + "\n").encode()})
        print(f"{count:,} FUA writes by `dmlw record`: {alone.seconds:.2f} s")
        if peer:
            print(f"{count:,} turns of two threads: {measure(peer, ['--hand-overs', str(count)], {}).seconds:.2f} s")


if __name__ == "__main__":
    main()
