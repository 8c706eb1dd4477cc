#!/usr/bin/env python3
"""Runs `dmlw run` many times on 1, 2, 4 and 64 seats, with random calls, each run on all processors, on one, or on two, as the seed has it. What a run prints
is worked out apart, and so is what stands in its log, up to the order of two seats' entries: each seat's FUA writes and marks stand in their order, each entry
once. A run has 60 seconds. Prints the seed and the counts; status 1 where a run differs, fails or hangs.

usage: bench/stress.py [PROGRAM] [RUNS] [SEED] [--under TOOL..]
       PROGRAM: the built program, else the one that ./dmlw runs. RUNS are 10,000 if not given. TOOL.. stands before the program, as `valgrind --tool=helgrind --error-exitcode=9`; a run has 600 seconds then
"""
import os
import random
import subprocess
import sys
import tempfile

from measure import program_of

SECTORS = 256
SEATS = (1, 2, 4, 64)


def calls_of(chance, seat, seats):
    """Random calls of a seat: their lines, what each is answered, and what stands in the log for it."""
    own = SECTORS // seats
    for place in range(chance.randint(1, 6 if seats > 8 else 12)):
        first = seat * own + chance.randrange(own)
        kind = chance.choice(("plain", "plain", "fua", "flush", "mark", "discard"))
        if kind == "plain":
            yield f"w {first} 1 5a", "done", f"write {first}+1"
        elif kind == "fua":
            yield f"w {first} 1 5b fua", "logged", f"write {first}+1 fua"
        elif kind == "flush":
            yield "f", "done", "flush"
        elif kind == "mark":
            yield f"mark m{seat}-{place}", "logged", f"mark m{seat}-{place}"
        else:
            yield f"d {first} 1", "done", f"discard {first}+1"


def sectors_of(entry):
    return 2 if entry.startswith("write") else 1


def script_of(chance, seats):
    lists = [list(calls_of(chance, seat, seats)) for seat in range(seats)]
    lines = [f"data {SECTORS}", "log 4096", f"seats {seats}"]
    places = [(seat, place) for seat in range(seats) for place in range(len(lists[seat]))]
    chance.shuffle(places)
    taken = [0] * seats
    for seat, _ in places:
        lines.append(f"s{seat} {lists[seat][taken[seat]][0]}")
        taken[seat] += 1
    return "\n".join(lines) + "\n", lists


def wanted_of(lists):
    lines = []
    for seat, calls in enumerate(lists):
        done, logged = (sum(answer == word for _, answer, _ in calls) for word in ("done", "logged"))
        lines.append(f"seat {seat}: {done} done {logged} logged 0 failed 0 not logged 0 refused")
    entries = [entry for calls in lists for _, _, entry in calls]
    return lines + [f"{len(entries) + 1} {1 + sum(map(sectors_of, entries))}"]


def differs(told, listed, lists):
    """What is wrong with what a run printed and with its log, if anything."""
    if told != wanted_of(lists):
        return "printed something else"
    entries = [line.split(" ", 2)[2] for line in listed[1:]]
    if entries[-1] != "mark dm-log-writes-end":
        return "no end mark"
    if sorted(entries[:-1]) != sorted(entry for calls in lists for _, _, entry in calls):
        return "other entries"
    for seat, calls in enumerate(lists):
        own = [entry for _, answer, entry in calls if answer == "logged"]
        kept = set(own)
        found = [entry for entry in entries if entry in kept]
        if found != own:
            return f"seat {seat}'s FUA writes and marks in another order"
    return None


def main():
    words = sys.argv[1:]
    under = []
    if "--under" in words:
        at = words.index("--under")
        words, under = words[:at], words[at + 1:]
    program = program_of([words.pop(0)] if words and not words[0].isdigit() else [])
    if len(words) > 2 or not all(it.isdigit() for it in words):
        print(__doc__.strip(), file=sys.stderr)
        return 2
    runs = int(words[0]) if words else 10_000
    seed = int(words[1]) if len(words) > 1 else random.randrange(2**32)
    limit = 600 if under else 60
    print(f"seed {seed}", flush=True)
    bad = 0
    processors = sorted(os.sched_getaffinity(0))
    with tempfile.TemporaryDirectory() as folder:
        for seats in SEATS:
            chance = random.Random(f"{seed} {seats}")
            wrong = 0
            for number in range(runs):
                text, lists = script_of(chance, seats)
                with open(f"{folder}/script", "w", encoding="utf-8") as it:
                    it.write(text)
                some = chance.choice((processors, [chance.choice(processors)], chance.sample(processors, min(2, len(processors)))))
                try:
                    ran = subprocess.run([*under, program, "run", "script", "log"], cwd=folder, stdout=subprocess.PIPE, stderr=subprocess.PIPE, text=True,
                                         timeout=limit, preexec_fn=lambda: os.sched_setaffinity(0, some))
                    found = f"status {ran.returncode}: {ran.stderr[-300:]}" if ran.returncode else None
                    if not found:
                        listed = subprocess.run([program, "list", "log"], cwd=folder, stdout=subprocess.PIPE, text=True, check=True).stdout.split("\n")[:-1]
                        found = differs(ran.stdout.split("\n")[:-1], listed, lists)
                except subprocess.TimeoutExpired:
                    found = f"no end within {limit} seconds"
                if found:
                    wrong += 1
                    print(f"run {number} of {seats} seats: {found}\n{text}", flush=True)
            bad += wrong
            print(f"{seats} seats: {runs} runs, {wrong} differ", flush=True)
    return 1 if bad else 0


if __name__ == "__main__":
    sys.exit(main())
