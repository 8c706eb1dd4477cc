#!/usr/bin/env python3
"""Runs the tests of `crates/thread_tests` many times with random delays. In a scratch copy each
call of a test's device (`Barrier`) first sleeps for up to 0.2 ms, by the clock's last digits, a reader
looks 500 times, and each test's body is run so often. They run with no proof (`rt try --test`).
Prints what they say, and how long all took; a test that hangs is stopped after an hour. Needs
Python 3.

usage: bench/delays.py [ROUNDS]     (200, if left out)
"""
import os
import re
import shutil
import subprocess
import sys
import tempfile
import time

ROOT = os.path.dirname(os.path.dirname(os.path.abspath(__file__)))
DELAY = """    // Delays a call at random.
    fn delay(&self) {
        let Ok(time) = self.clock.monotonic() else {
            return;
        };
        let picked = u64::from(time.subsec_nanos()).wrapping_mul(2_654_435_761) >> 7 & 255;
        if picked < 200 {
            sleep(&self.clock, Duration::from_micros(picked));
        }
    }

    // Holds a write that begins at sector `first`, if it is the one to hold.
"""
HEAD = r"#\[test\]\nfn \w+\(rt: HostRuntime\) -> Result<\(\), Fail> \{\n"
TEST = re.compile(f"({HEAD})(.*?)" + r"(    Ok\(\(\)\)\n\})", re.S)


def delayed(text):
    """The barrier, whose calls are delayed."""
    begin = "    // Holds a write that begins at sector `first`, if it is the one to hold.\n"
    assert text.count(begin) == 1
    text = text.replace(begin, DELAY)
    calls = ["self.lower.read(", "self.lower.discard(", "self.lower.flush(", "self.pass(first)"]
    for call in calls:
        assert text.count(f"        {call}") == 1
        text = text.replace(f"        {call}", f"        self.delay();\n        {call}")
    return text


def looped(text, rounds):
    """A file's tests, each of which runs so often."""
    return TEST.sub(lambda it: f"{it[1]}    for _ in 0..{rounds} {{\n{it[2]}    }}\n{it[3]}", text)


def hasty(text):
    """The readers, which look less often."""
    return text.replace("LOOKS: u64 = 10_000;", "LOOKS: u64 = 500;")


def edit(path, change):
    with open(path) as it:
        text = it.read()
    with open(path, "w") as it:
        it.write(change(text))


def main():
    rounds = int(sys.argv[1]) if len(sys.argv) > 1 else 200
    with tempfile.TemporaryDirectory() as folder:
        crates = f"{folder}/crates"
        shutil.copytree(f"{ROOT}/crates", crates, ignore=shutil.ignore_patterns("out", "data"))
        for name in ("crates.txt", "HANDLES"):
            shutil.copy(f"{ROOT}/{name}", f"{folder}/{name}")
        tests = f"{crates}/thread_tests"
        edit(f"{tests}/src/barrier.rt", delayed)
        edit(f"{tests}/src/play.rt", hasty)
        for name in ("one", "scenes", "large"):
            edit(f"{tests}/src/{name}.rt", lambda text: looped(text, rounds))
        begun = time.monotonic()
        words = ["rt", "try", "--test", "--steps", "1", "--seconds", "3600"]
        ended = subprocess.run(words, cwd=tests, text=True, capture_output=True)
        failed = ended.returncode != 0
        told = (ended.stdout + ended.stderr).splitlines()
        print("\n".join(it for it in told if failed or it.startswith("test")))
        took = time.monotonic() - begun
        print(f"{rounds} rounds of each test: {took:.0f} s, status {ended.returncode}")
        sys.exit(ended.returncode)


if __name__ == "__main__":
    main()
