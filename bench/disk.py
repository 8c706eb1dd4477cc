#!/usr/bin/env python3
"""Measures the disk in memory: makes a program over `sector_disk` in a folder of its own, and runs it for 100,000, 200,000 and 400,000
writes of a sector with a crash at the end, and for a disk of 1,048,576 sectors with no write. Prints times, the ratio to half the
writes, and the peak memory. Needs nothing but Python 3 and `rt`.

usage: bench/disk.py
"""

import os
import shutil
import subprocess
import tempfile

from measure import MIB, ROOT, measure

LIBRARIES = ["refusals", "bio", "blockdev", "sector_disk"]

PROGRAM = """#![tactic(auto)]

use bio::{DevError, Ms};
use blockdev::BlockDev;
use sector_disk::SectorDisk;

const SECTORS: u64 = %d;

const WRITES: u64 = %d;

fn main(rt: HostRuntime) -> Result<(), DevError> {
    let mut disk = SectorDisk::new(rt.alloc(), SECTORS)?;
    for number in 0..WRITES {
        let first = number * 7919 %% SECTORS;
        if first < disk.sectors() {
            disk.write(Ms::new(0), first, &[1; 512], false)?;
        }
    }
    disk.crash(&[1, 2, 3]);
    Ok(())
}
"""


def build(folder, sectors, writes):
    """The program for a disk of so many sectors and so many writes."""
    crate = f"{folder}/crates/disk_bench"
    os.makedirs(f"{crate}/src", exist_ok=True)
    with open(f"{crate}/src/main.rt", "w") as it:
        it.write(PROGRAM % (sectors, writes))
    subprocess.run(["rt", "run"], cwd=crate, check=True, stdout=subprocess.DEVNULL, stderr=subprocess.DEVNULL)
    return f"{crate}/out/disk_bench"


def main():
    with tempfile.TemporaryDirectory() as folder:
        for name in LIBRARIES:
            shutil.copytree(f"{ROOT}/crates/{name}", f"{folder}/crates/{name}", ignore=shutil.ignore_patterns("must-fail"))
        with open(f"{ROOT}/crates.txt") as it:
            lines = [line for line in it if line.split(":")[0] in LIBRARIES]
        with open(f"{folder}/crates.txt", "w") as it:
            it.writelines([*lines, "disk_bench: bio blockdev refusals sector_disk\n"])
        print(" sectors   writes  seconds  ratio  peak MiB")
        before = None
        for sectors, writes in ((1_048_576, 0), (65_536, 100_000), (65_536, 200_000), (65_536, 400_000)):
            program = build(folder, sectors, writes)
            ran = measure(program, [], {}, 3)
            ratio = f"{ran.seconds / before:6.2f}" if before and writes > 100_000 else "      "
            before = ran.seconds
            print(f"{sectors:8d} {writes:8d} {ran.seconds:8.2f} {ratio} {ran.peak / MIB:9.1f}")


if __name__ == "__main__":
    main()
