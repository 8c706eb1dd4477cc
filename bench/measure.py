"""Runs the built program, and tells the CPU time and the memory that it takes; beside it, where there is a rustc, the
plain Rust program of bench/peer.rs, which does the same unproved. Needs Linux, for ptrace."""

import contextlib
import ctypes
import os
import shutil
import subprocess
import sys
import tempfile
import time

ROOT = os.path.dirname(os.path.dirname(os.path.abspath(__file__)))
MIB = 1 << 20
RUNS = 5

# A round of runs counts if the machine's host took at most this share of the processors' time meanwhile (`steal` of
# proc_stat(5)), or if four times as many rounds as are wanted had no more that do.
MOST_STOLEN = 0.02

# The requests of ptrace(2) that are used here, and what it tells at a process's end.
TRACEME, CONT, DETACH, SETOPTIONS = 0, 7, 17, 0x4200
TRACE_EXIT, EXIT_EVENT = 0x40, 6


class Measured:
    """What some runs of a program took: the least CPU seconds, user and system, the least seconds of a clock, and
    the memory that one run more held at most, in bytes."""

    def __init__(self, runs, peak):
        self.seconds = min(cpu for cpu, _ in runs)
        self.clock = min(clock for _, clock in runs)
        self.peak = peak

    def beside(self, peer):
        """How many times the peer's seconds these are."""
        return f"{self.seconds / peer.seconds:5.2f}" if peer else "     "


def build():
    """The program that ./dmlw runs: the one that was built here, or that of release/, else it is built."""
    ran = subprocess.run([f"{ROOT}/dmlw", "--which"], stdout=subprocess.PIPE, text=True)
    if ran.returncode:
        sys.exit("there is no program to try: ./dmlw --which fails, see above")
    return ran.stdout.strip()


def program_of(words):
    """The program that is named, if one is, else the one that ./dmlw runs."""
    if not words:
        return build()
    if not os.access(words[0], os.X_OK) or os.path.isdir(words[0]):
        sys.exit(f"{words[0]} is no program")
    return os.path.realpath(words[0])


def build_peer(folder):
    """The peer, built into a folder; None where there is no rustc."""
    rustc = shutil.which("rustc")
    if rustc is None:
        return None
    subprocess.run([rustc, "--edition", "2021", "-O", "-o", f"{folder}/peer", f"{ROOT}/bench/peer.rs"], check=True)
    return f"{folder}/peer"


def processors():
    """How many processors this process may use."""
    return len(os.sched_getaffinity(0))


def base(program):
    """The memory that the program holds to tell its version, in bytes: what any run of it holds."""
    return measure(program, ["--version"], {}).peak


def measure(program, words, files, runs=RUNS):
    """Measures so many runs of a program in a folder with these files."""
    return measure_beside([program, *words], None, files, runs)[0]


def measure_beside(ours, theirs, files, runs=RUNS):
    """Measures so many runs of a command and, unless it is None, of the peer's. They run in turns, so that what else
    the machine does slows them alike; each has a folder of its own with these files."""
    with contextlib.ExitStack() as stack:
        folders = [stack.enter_context(tempfile.TemporaryDirectory()) for _ in range(2)]
        for folder in folders:
            for name, data in files.items():
                with open(f"{folder}/{name}", "wb") as it:
                    it.write(data)
        each = [it for it in zip((ours, theirs), folders) if it[0]]
        rounds = []
        while len(rounds) < 4 * runs and sum(stolen <= MOST_STOLEN for stolen, _ in rounds) < runs:
            stolen, whole = processor_time()
            ran = [time_of(*it) for it in each]
            now_stolen, now = processor_time()
            rounds.append(((now_stolen - stolen) / max(1, now - whole), ran))
        rounds.sort(key=lambda it: it[0])
        if MOST_STOLEN < rounds[runs - 1][0]:
            print(f"(the host took {rounds[runs - 1][0]:.0%} of the time meanwhile)", file=sys.stderr)
        both = [Measured(ran, peak_of(*it)) for ran, it in zip(zip(*(ran for _, ran in rounds[:runs])), each)]
        return (*both, None)[:2]


def processor_time():
    """What the machine's host took of the processors' time since the start, and all of their time, in clock ticks."""
    with open("/proc/stat") as it:
        ticks = [int(word) for word in it.readline().split()[1:9]]
    return ticks[7], sum(ticks)


def time_of(words, folder):
    """CPU seconds and seconds of a clock of one run. subprocess starts it by vfork(2), so that no copy of this
    process's memory counts as the program's."""
    begun = time.monotonic()
    child = subprocess.Popen(words, cwd=folder, stdout=subprocess.DEVNULL)
    _, status, used = os.wait4(child.pid, 0)
    clock = time.monotonic() - begun
    child.returncode = os.waitstatus_to_exitcode(status)
    check(child.returncode)
    return used.ru_utime + used.ru_stime, clock


def peak_of(words, folder):
    """The most memory that one run held, in bytes, read at its end from the kernel: what wait4(2) tells also counts
    the memory of this process, from which the program was started."""
    child = os.fork()
    if child == 0:
        os.chdir(folder)
        os.dup2(os.open(os.devnull, os.O_WRONLY), 1)
        ptrace(TRACEME, 0, 0)
        os.execv(words[0], words)
    os.waitpid(child, 0)
    ptrace(SETOPTIONS, child, TRACE_EXIT)
    ptrace(CONT, child, 0)
    _, status = os.waitpid(child, 0)
    if status >> 16 != EXIT_EVENT:
        sys.exit(f"the program was stopped by {status}")
    with open(f"/proc/{child}/status") as it:
        lines = dict(line.split(":", 1) for line in it)
    ptrace(DETACH, child, 0)
    _, status = os.waitpid(child, 0)
    check(os.waitstatus_to_exitcode(status))
    return int(lines["VmHWM"].split()[0]) * 1024


def check(status):
    if status != 0:
        sys.exit(f"the program ended with {status}")


def ptrace(request, child, value):
    call = ctypes.CDLL(None).ptrace
    call.argtypes = [ctypes.c_long, ctypes.c_long, ctypes.c_void_p, ctypes.c_void_p]
    if call(request, child, None, value) < 0:
        sys.exit("the program can't be traced")
