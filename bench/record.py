#!/usr/bin/env python3
"""Measures `dmlw record`: makes scripts, runs the program on them, and prints CPU times, the ratio to the script before of
the same kind, the ratios to the plain Rust program of bench/peer.rs, which writes the log into one list of bytes, and to the same over two disks
in memory, and the peak memory beside what it is made of. Needs
Python 3, and for the peer a rustc.

usage: bench/record.py            (builds the program where needed, by ./dmlw)
       bench/record.py --sizes    (the memory of a request alone, at 21 sizes of each kind of script)
"""

import sys
import tempfile

from measure import MIB, base, build, build_peer, measure

SECTOR = 512
DATA_SECTORS = 1048576

# The kinds of small scripts, and how many of their requests come to a flush.
KINDS = {"writes of a sector": 0, "a flush every 10": 10, "flushes alone": 1}


class Script:
    """A script: its bytes, its requests, the bytes of the log that it needs, and the sectors of both disks."""

    def __init__(self, lines, requests, sectors_written):
        log = 3 + requests + sectors_written
        self.text = f"data {DATA_SECTORS}\nlog {log:07d}\n{''.join(lines)}close\n".encode()
        self.requests = requests
        self.image = log * SECTOR
        self.data = sectors_written * SECTOR
        self.sectors = DATA_SECTORS + log


def small(size, flush_every):
    """A script of at most so many bytes: writes of one sector, each ended at once; each so many requests a flush."""
    room = size - len("data 1048576\nlog 0000000\nclose\n")
    lines, writes = [], 0
    while True:
        number = len(lines)
        name = f"r{number:06d}"
        if flush_every and number % flush_every == flush_every - 1:
            text = f"f {name}\nc {name}\n"
        else:
            text = f"w {name} {number} 1 5a\nc {name}\n"
        if len(text) > room:
            return Script(lines, number, writes)
        room -= len(text)
        lines.append(text)
        writes += text.startswith("w")


def large(writes):
    """A script of so many writes of 1 MiB, each ended at once."""
    lines = [f"w r{number} {2048 * number} 2048 5a\nc r{number}\n" for number in range(writes)]
    return Script(lines, writes, 2048 * writes)


def sizes(program, always):
    """The most bytes that a request takes beside the log and the sectors, over scripts of 0.25 to 4 MiB: a list that grows has more room than it needs
    just after it has grown."""
    for kind, flush_every in KINDS.items():
        each = []
        for step in range(4, 65, 3):
            script = small(step * MIB // 16, flush_every)
            each.append(bytes_of_request(script, measure(program, ["record", "script", "log"], {"script": script.text}, 1), always))
        print(f"{kind}: {min(each):.0f} to {max(each):.0f} bytes a request at {len(each)} sizes")


def bytes_of_request(script, measured, always):
    """What a request takes beside what any run holds, the data on its disk, the log on its own, and 8 bytes for each sector of the two disks. (The events
    share the data of writes that follow one another with the same bytes, and the file is written piece by piece.)"""
    return (measured.peak - always - script.data - script.image - 8 * script.sectors) / script.requests


def main():
    program = build()
    always = base(program)
    if sys.argv[1:] == ["--sizes"]:
        return sizes(program, always)
    print(f"any run holds {always / MIB:.1f} MiB")
    print("script                         requests  CPU s  ratio  times the peer   over two disks   peak MiB   log MiB   rest a request")
    kinds = [(kind, [small(size, flush_every) for size in (MIB, 2 * MIB, 4 * MIB)]) for kind, flush_every in KINDS.items()]
    kinds += [("writes of 1 MiB", [large(writes) for writes in (255, 511)])]
    with tempfile.TemporaryDirectory() as folder:
        peer = build_peer(folder)
        for kind, scripts in kinds:
            before = None
            for script in scripts:
                files = {"script": script.text}
                ours = measure(program, ["record", "script", "log"], files)
                theirs = peer and measure(peer, ["record", "script", "log"], files)
                on_disks = peer and measure(peer, ["record-disks", "script", "log"], files)
                ratio = f"{ours.seconds / before:5.2f}" if before else "     "
                before = ours.seconds
                each = bytes_of_request(script, ours, always)
                print(
                    f"{kind:19}{len(script.text) / MIB:6.2f} MiB {script.requests:9d} {ours.seconds:6.2f}  {ratio}  {ours.beside(theirs)}"
                    f"          {ours.beside(on_disks)}         {ours.peak / MIB:10.1f} {script.image / MIB:9.1f}"
                    f"   {each:6.0f} bytes beside both disks"
                )


if __name__ == "__main__":
    main()
