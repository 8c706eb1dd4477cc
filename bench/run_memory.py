#!/usr/bin/env python3
"""Measures what a call of `dmlw run` holds in memory beside the same call of `dmlw record`: the
same requests in the same order over disks of the same sizes. Both keep the events, the entries and
both disks' past; `run` has the lists of its seats, of the device and of the log beside them. Prints
for each kind of calls and number of seats both peaks, without what any run of the program holds,
and the difference a call. Needs Python 3.

usage: bench/run_memory.py [PROGRAM]     (PROGRAM: the built dmlw, else it is built by ./dmlw)
"""
import os
import sys

from measure import MIB, base, build, measure
from run import CALLS, script


def recorded(text):
    """The script of `record` that submits and ends one by one what a script of `run` submits."""
    lines = []
    for place, line in enumerate(text.decode().splitlines()):
        words = line.split()
        if words[0] == "seats":
            continue
        if words[0] in ("data", "log"):
            lines.append(line)
            continue
        name = f"q{place:x}"
        lines.append(" ".join([words[1], name] + words[2:]))
        lines.append(f"c {name}")
    return ("\n".join(lines + ["close"]) + "\n").encode()


def main():
    program = os.path.abspath(sys.argv[1]) if len(sys.argv) > 1 else build()
    always = base(program)
    print("| calls | seats | `run`, MiB | `record`, MiB | bytes a call more | of which script |")
    print("|---|---|---|---|---|---|")
    for kind, calls in CALLS.items():
        for seats in (1, 4, 8):
            text = script(kind, seats, calls)
            other = recorded(text)
            ran = measure(program, ["run", "script", "log"], {"script": text}, 3).peak - always
            held = measure(program, ["record", "script", "log"], {"script": other}, 3).peak - always
            more, words = (ran - held) / calls, (len(text) - len(other)) / calls
            peaks = f"{ran / MIB:.1f} | {held / MIB:.1f}"
            print(f"| {kind} | {seats} | {peaks} | {more:.0f} | {words:.0f} |", flush=True)


if __name__ == "__main__":
    main()
