#!/usr/bin/env python3
"""Measures `dmlw judge` and `dmlw path`: makes scripts of 50,000, 100,000 and 200,000 events over 32,768, 65,536 and 131,072 sectors, asks both of the
image that all of their writes leave after the last event, and prints CPU times, the ratio to the script before, the ratio to `dmlw record`
of the same script, and the peak memory; of `path` also the ratio to `judge`. Then the same with 10,000, 20,000 and 40,000 events over the most
sectors that a device has, 1,048,576, where all but the requests' own sectors are alike: a judge that goes over each sector for each request would
take hours. Ends with status 1 where a doubling takes more than 2.3 times as long, or `path` more than 2.5 times as long as `judge`. Needs Python 3.

usage: bench/judge.py            (builds the program where needed, by ./dmlw)
"""

import sys


from measure import MIB, build, measure

SECTOR = 512
FLUSH_EVERY = 10
MOST_SECTORS = 1_048_576
GROWTH = 2.3
PATH = 2.5


def script_of(events, sectors):
    """A script of so many events over so many sectors: writes of one sector, each ended at once, each tenth request a flush; and the image that
    they leave."""
    lines, image, writes = [], bytearray(sectors * SECTOR), 0
    for number in range(events // 2):
        if number % FLUSH_EVERY == FLUSH_EVERY - 1:
            lines.append(f"f r{number}\nc r{number}\n")
            continue
        sector, byte = number % sectors, number % 255 + 1
        lines.append(f"w r{number} {sector} 1 {byte:02x}\nc r{number}\n")
        image[sector * SECTOR : (sector + 1) * SECTOR] = bytes([byte]) * SECTOR
        writes += 1
    log = 3 + events // 2 + writes
    return f"data {sectors}\nlog {log}\n{''.join(lines)}".encode(), image


def judged(program, counts, sectors_of):
    """Prints a line for each count of events, and tells whether no doubling takes more than GROWTH times as long, and no path more than PATH times
    as long as its verdict."""
    before, fits = None, True
    for events in counts:
        script, image = script_of(events, sectors_of(events))
        files = {"script": script, "image": image}
        judging = measure(program, ["judge", "script", str(events), "image"], files)
        finding = measure(program, ["path", "script", str(events), "image"], files)
        recording = measure(program, ["record", "script", "log"], files)
        told = [f"{events:7d} {sectors_of(events):9d}"]
        for at, command in enumerate((judging, finding)):
            ratio = f"{command.seconds / before[at].seconds:5.2f}" if before else "     "
            told.append(f"{command.seconds:6.2f}  {ratio}  {command.beside(recording)}  {command.peak / MIB:8.1f}")
            fits = fits and not (before and command.seconds > GROWTH * before[at].seconds)
        fits = fits and finding.seconds <= PATH * judging.seconds
        before = judging, finding
        print(*told, finding.beside(judging), sep="   ", flush=True)
    return fits


def main():
    program = build()
    print(" events   sectors     judge: CPU s, ratio, times the recording, peak MiB; path: the same, and times judge")
    grows = judged(program, (50_000, 100_000, 200_000), lambda events: events * 32_768 // 50_000)
    stays = judged(program, (10_000, 20_000, 40_000), lambda events: MOST_SECTORS)
    sys.exit(not (grows and stays))


if __name__ == "__main__":
    main()
