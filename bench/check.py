#!/usr/bin/env python3
"""check: tries the program within two minutes on one processor. `make check` calls it.

  bench/check.py [PROGRAM]      PROGRAM: the built program, else the one that ./dmlw runs

It needs nothing but the checkout, Python 3 and that program; what needs a file system's tools is left out if these aren't installed, with a line that begins with `--`. It proves
nothing: `.ci/run` does. Its parts are the commands of the pages (bench/examples.py), sessions of clients of `serve`, byte for byte (bench/sessions.py), scripts on disks and of
seats against a model (bench/force.py), damaged logs against the same model (bench/hostile.py), runs of threads (bench/stress.py), and the states of the sample's log by
examples/each.sh. Each prints a line. A command, a session, a script, a damaged log, a run or a state is one trial, and the last line counts them: `N passed, N failed`. Ends with
status 1 if one failed.
"""
import lzma, os, re, shutil, subprocess, sys, tempfile, time

from measure import ROOT, processors, program_of

SCRIPTS, SEATS, IMAGES, RUNS = 400, 200, 3000, 25
PATH = os.environ["PATH"] + ":/usr/sbin:/sbin"


class Check:
    def __init__(self, program):
        self.program, self.passed, self.failed, self.begin = program, 0, 0, time.time()
        self.env = dict(os.environ, DMLW=program, PATH=PATH)
        self.env.pop("DMLW_EXPLAIN", None)

    def run(self, *words, cwd=None):
        ran = subprocess.run(words, cwd=cwd, env=self.env, stdout=subprocess.PIPE, stderr=subprocess.STDOUT, text=True)
        return ran.returncode, ran.stdout

    def count(self, name, tried, failed, status, told):
        """Counts a part, and prints all that it printed if it failed. A part that ended otherwise than by its counts is a failure too."""
        if not failed and (status or not tried):
            failed = 1
            tried = max(tried, 1)
        if failed:
            print(told.rstrip())
        print("".join(f"{line}\n" for line in told.split("\n") if line.startswith("--") and not failed), end="")
        print(f"{name}: {tried - failed} passed, {failed} failed ({time.time() - self.begin:.0f} s)", flush=True)
        self.passed += tried - failed
        self.failed += failed

    def part(self, name, script, words, pattern):
        """A script of bench/, with a pattern of its lines that finds how many trials there were, and how many of them failed."""
        status, told = self.run(sys.executable, f"{ROOT}/bench/{script}", *words)
        found = [tuple(int(it.replace(",", "")) for it in both) for both in re.findall(pattern, told, re.M)]
        tried, failed = sum(it[0] for it in found), sum(min(it) for it in found)
        self.count(name, tried, failed, status, told)

    def sessions(self):
        """The sessions of bench/sessions.t."""
        status, told = self.run(sys.executable, f"{ROOT}/bench/sessions.py", self.program)
        found = re.findall(r"^(\d+) passed, (\d+) failed$", told, re.M)
        passed, failed = map(int, found[-1]) if found else (0, 0)
        self.count("sessions of serve", passed + failed, failed, status, told)

    def sample(self):
        """The sample's states from the end of mkfs on; without e2fsck each is only made, and looked at for its size."""
        check = [f"{ROOT}/examples/check-ext4.sh"] if shutil.which("e2fsck", path=PATH) else ["test", "-s"]
        with tempfile.TemporaryDirectory() as room:
            for it in ("log", "first"):
                with lzma.open(f"{ROOT}/examples/ext4.{it}.xz") as packed, open(f"{room}/ext4.{it}", "wb") as file:
                    shutil.copyfileobj(packed, file)
            status, told = self.run(f"{ROOT}/examples/each.sh", "-j", str(processors()), "--from", "mark:mkfs", "all", "ext4.log", "ext4.first", *check, cwd=room)
        found = re.findall(r"^(\d+) checked, (\d+) failed", told, re.M)
        tried, failed = map(int, found[-1]) if found else (0, 0)
        if check[0] == "test":
            told += "--   the sample's file system: no e2fsck, so its states are only made\n"
        self.count("states of the sample", tried, failed, status, told)


def main():
    if len(sys.argv) > 2 or sys.argv[1:2] in (["-h"], ["--help"]):
        print(__doc__.strip(), file=sys.stderr)
        return 2
    check = Check(program_of(sys.argv[1:]))
    print(f"the program is {check.program}", flush=True)
    differences = r"^([\d,]+) (?:scripts|images) .*?, ([\d,]+) differences$"
    check.part("commands of the pages", "examples.py", [check.program], r"^([\d,]+) commands, .*?, (\d+) differ$")
    check.sessions()
    check.part("scripts", "force.py", [str(SCRIPTS)], differences)
    check.part("scripts of seats", "force.py", ["--seats", str(SEATS)], differences)
    check.part("damaged logs", "hostile.py", [str(IMAGES), "1", check.program], differences)
    check.part("runs of threads", "stress.py", [check.program, str(RUNS), "1"], r"seats: (\d+) runs, (\d+) differ$")
    check.sample()
    print(f"{check.passed} passed, {check.failed} failed")
    return 1 if check.failed else 0


if __name__ == "__main__":
    sys.exit(main())
