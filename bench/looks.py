#!/usr/bin/env python3
"""looks: how often a reader looks at the status that the writer publishes (`Shared::status`), while four seats write.

  bench/looks.py [LOOKS]

Runs the tests of crates/thread_tests in a copy, compiled with no proof (`rt try --test`), once as they stand and once with so many looks (50,000,000 if left out)
of each of the four readers of `four_seats`, which two tests play. Prints the CPU nanoseconds of a look: what the second run took more, by the looks that it made more.
CPU time holds beside other work too. It needs Python 3 and the kit's `rt` on the PATH.
"""
import os, re, resource, shutil, subprocess, sys, tempfile

root = os.path.dirname(os.path.dirname(os.path.abspath(__file__)))
READERS, TESTS = 4, 2


def cpu_of(at, looks):
    """The CPU seconds of the tests with so many looks."""
    path = f"{at}/crates/thread_tests/src/play.rt"
    with open(path, encoding="utf-8") as it:
        text = it.read()
    text, found = re.subn(r"const LOOKS: u64 = [\d_]+;", f"const LOOKS: u64 = {looks};", text)
    assert found == 1
    with open(path, "w", encoding="utf-8") as it:
        it.write(text)
    before = resource.getrusage(resource.RUSAGE_CHILDREN)
    done = subprocess.run(["rt", "try", "--test", "--seconds", "600"], cwd=f"{at}/crates/thread_tests", stdout=subprocess.PIPE, stderr=subprocess.STDOUT, text=True)
    after = resource.getrusage(resource.RUSAGE_CHILDREN)
    last = done.stdout.strip().split("\n")[-1]
    if done.returncode != 0:
        raise SystemExit(f"looks: {last}")
    return after.ru_utime + after.ru_stime - before.ru_utime - before.ru_stime


def main():
    looks = int(sys.argv[1].replace("_", "")) if len(sys.argv) > 1 else 50_000_000
    with tempfile.TemporaryDirectory(prefix="looks-") as at:
        shutil.copy(f"{root}/crates.txt", at)
        shutil.copy(f"{root}/HANDLES", at)
        shutil.copytree(f"{root}/crates", f"{at}/crates", ignore=shutil.ignore_patterns("out"))
        few = cpu_of(at, 10_000)
        many = cpu_of(at, looks)
    more = READERS * TESTS * (looks - 10_000)
    each = (many - few) / more
    print(f"{more:,} looks more took {many - few:.1f} CPU s more: {each * 1e9:.1f} ns a look, {1 / each / 1e6:.0f} million looks a CPU second")
    return 0


if __name__ == "__main__":
    sys.exit(main())
