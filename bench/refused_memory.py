#!/usr/bin/env python3
"""refused_memory: the built program with its Nth growth of memory refused, for N from 1 until a run meets no refusal.

  bench/refused_memory.py [PROGRAM]             PROGRAM: the built program, else the one that ./dmlw runs
  bench/refused_memory.py --from [PROGRAM]      all growths from the Nth on are refused, as where memory has run out

A small C library that is built here (it needs `cc`) stands before the program's `malloc` and `realloc`: it counts them, in all threads, and refuses one, or all
from it on. Each script is recorded so, and its log listed, asked for its status, replayed, judged, asked for a path and, where it can be, copied; last four seats are run.

Each answer has to be the one with ample memory, or Memory, or what is told where logging ended for want of memory. The log, where one was written, has to read
back as a beginning of the completion list, which `bench/force.py` works out by its definition, and to hold all that was settled or told as logged. Prints
how many N each command took, what its answers were, and each that differs; ends with status 1 where one does.
"""
import collections, os, re, subprocess, sys, tempfile
from multiprocessing import Pool
from types import SimpleNamespace

import force
from measure import program_of

SOURCE = r"""
#include <errno.h>
#include <fcntl.h>
#include <stdatomic.h>
#include <stddef.h>
#include <stdlib.h>
#include <sys/mman.h>

extern void *__libc_malloc(size_t);
extern void *__libc_realloc(void *, size_t);
static atomic_long unseen;
// How many growths were asked for: in a file that outlives the program, which ends without its libraries' destructors.
static atomic_long *asked = &unseen;
static long first = -1, last = -1;

static long number(const char *name) {
    const char *text = getenv(name);
    return text ? atol(text) : 0;
}

__attribute__((constructor)) static void begin(void) {
    const char *name = getenv("REFUSE_COUNT");
    int file = name ? open(name, O_RDWR) : -1;
    void *shared = file < 0 ? MAP_FAILED : mmap(NULL, sizeof(long), PROT_READ | PROT_WRITE, MAP_SHARED, file, 0);
    if (shared != MAP_FAILED) asked = shared;
    last = number("REFUSE_LAST");
    first = number("REFUSE_FIRST");
    atomic_store(asked, 0);
}

static int is_refused(void) {
    long place = atomic_fetch_add(asked, 1) + 1;
    if (first < 1 || place < first || place > last) return 0;
    errno = ENOMEM;
    return 1;
}

void *malloc(size_t size) { return is_refused() ? NULL : __libc_malloc(size); }

void *realloc(void *block, size_t size) { return is_refused() ? NULL : __libc_realloc(block, size); }
"""
SCRIPTS = {
    "plain-flush": "data 16|log 32|w a 5 1 41|c a|f b|c b|close",
    "fua-overtakes": "data 16|log 32|w a 5 1 61|c a|w b 5 1 62 fua|c b|f g|c g|close",
    "settled-fua": "data 16|log 32|w a 4 1 11|c a|w b 8 2 22 flush fua|c b|turn|turn|crash",
    "settled-fua, closed": "data 16|log 32|w a 4 1 11|c a|w b 8 2 22 flush fua|c b|turn|turn|close",
    "a mark": "data 16|log 32|w a 4 1 11|c a|mark x|turn|f b|c b|close",
    "a copy": "data 16|log 32|w a 8 8 11 fua|c a|close",
}
OLDER = b"older"
SEATS, WRITES = 4, 100
SECONDS = 20
ALWAYS = 1 << 62


class Room:
    """A folder of files, in which the program is run with a growth refused."""

    def __init__(self, program, library, folder, last):
        self.program, self.library, self.folder, self.is_last = program, library, folder, last

    def write(self, name, data):
        with open(f"{self.folder}/{name}", "wb") as it:
            it.write(data)

    def read(self, name):
        with open(f"{self.folder}/{name}", "rb") as it:
            return it.read()

    def run(self, number, *words):
        """What is told, and how many growths were asked for."""
        how = dict(os.environ, LD_PRELOAD=self.library, REFUSE_COUNT=f"{self.folder}/count", REFUSE_FIRST=str(number))
        how["REFUSE_LAST"] = str(number if self.is_last else ALWAYS)
        self.write("count", bytes(8))
        try:
            done = subprocess.run([self.program, *map(str, words)], cwd=self.folder, capture_output=True, env=how, timeout=SECONDS)
        except subprocess.TimeoutExpired:
            return ("", f"no end after {SECONDS} seconds", -1), ALWAYS
        return (done.stdout.decode(), done.stderr.decode(), done.returncode), int.from_bytes(self.read("count"), "little")


def script_of(text):
    """A script for the model of bench/force.py."""
    lines = text.split("|")
    body = [(at + 1, line.split(" ")) for at, line in enumerate(lines) if at > 1]
    return SimpleNamespace(data=int(lines[0].split(" ")[1]), log=int(lines[1].split(" ")[1]), data_layers=[], log_layers=[], unit=1, body=body, lines=lines)


def names_of(text):
    return [line.split(" ")[1] for line in text.split("|") if line[:2] in ("w ", "f ", "d ")] + ["mark"] * text.count("|mark ")


def lines_where(text, failed, at_once):
    """The lines of requests and marks, where these failed, and those of them that found no memory were told at once."""
    lines = []
    for words in (line.split(" ") for line in text.split("|")):
        if words[0] in "wfd" and words[1] in at_once:
            lines.append(f"{words[1]} failed\n")
        if words[0] == "mark" and "mark" in failed:
            lines.append("mark failed\n")
        if words[0] == "c" and words[1] not in at_once:
            lines.append(f"{words[1]} {'failed' if words[1] in failed else 'ok'}\n")
    return lines


def status_of(entries):
    return f"{len(entries)} {sum(1 + len(it[4]) // force.SECTOR * (not it[2] & force.MARK) for it in entries)}"


def entries_of(image):
    """The entries that a log reads back as, if it is one."""
    found, code = force.read_log(image)
    return None if found is None or code is not None else [it[1:] for it in found]


def as_read(placed):
    return [(sector, count, flags, text or data) for sector, count, flags, text, data in placed]


def settled_counts(placed, placed_count):
    """How many entries can be settled where so many were placed: those up to the last FUA write or mark, which may have been placed and not settled."""
    ends = [0] + [at + 1 for at, it in enumerate(placed[:placed_count]) if it[2] & (force.FUA | force.MARK)]
    return set(ends[-2:]) if ends[-1] == placed_count else {ends[-1]}


def is_refused(told, log, printed, close):
    """Whether a command was refused for want of memory, after a beginning of what it prints else, and left the older log."""
    out, err, status = told
    named = [("dmlw: 2 Memory\n", 1), (f"dmlw: line {close}: 2 Memory\n", 1)] + [("dmlw: 20 Memory\n", 3)] * (out == "")
    return log == OLDER and (err, status) in named and printed.startswith(out)


def record_answer(text, model, told, log, is_one):
    """What an answer of `record` is; it begins with `differs` where it can't be."""
    out, err, status = told
    names, lines = names_of(text), text.split("|")
    close = lines.index("close") + 1 if "close" in lines else 0
    if told == (model.printed(), "", 0) and log == model.log_disk.image():
        return "as with ample memory"
    shown = out.splitlines(True)
    failed = [it for it in names if f"{it} failed\n" in shown]
    ended = shown[-1:] != [] and shown[-1].endswith(" logging_disabled\n")
    if is_one and len(failed) > 1:
        return "differs: two failed"
    choices = [once for once in (set(), set(failed) - {"mark"}) if lines_where(text, failed, once) == (shown[:-1] if not err else shown)]
    stated = re.fullmatch(r"(\d+) \d+( logging_disabled)?\n", shown[-1]) if shown and failed or ended else None
    if stated and (err, status) == ("dmlw: 2 Memory\n", 1) and log == OLDER:
        # Requests had failed or logging had ended, and then there was no memory for the log's file: the lines and the status are printed before.
        said = any(lines_where(text, failed, once) == shown[:-1] for once in (set(), set(failed) - {"mark"}))
        known = shown[-1] == status_of(model.placed[: int(stated[1])]) + (stated[2] or "") + "\n"
        return "refused: dmlw: 2 Memory behind the status" if said and known else "differs: refused otherwise"
    if err:
        may_begin = ["".join(lines_where(text, failed, once)) for once in (set(), set(failed) - {"mark"})]
        good = any(is_refused(told, log, it, close) for it in [*may_begin, model.printed()])
        return "refused: " + err.strip() + (" after lines" if out else "") if good else "differs: refused otherwise"
    if not choices:
        return "differs: other lines"
    if not ended:
        whole = any(is_whole(text, once | ({"mark"} & set(failed)), shown[-1], status, log) for once in choices)
        return f"{'a mark' if 'mark' in failed else 'a request'} failed, log whole" if whole and failed else "differs: the log isn't whole"
    return ended_answer(model, shown[-1], status, log, failed, choices)


def is_whole(text, gone, line, status, log):
    """Whether the log has all of a script but these requests and marks, of which the recorder wasn't told."""
    lines = [it for it in text.split("|") if not (it.split(" ")[0] in tuple("wfdc") and it.split(" ")[1] in gone) and not (it.startswith("mark ") and "mark" in gone)]
    placed = model_of("|".join(lines)).placed
    return status == 0 and line == status_of(placed) + "\n" and entries_of(log) == as_read(placed)


def ended_answer(model, line, status, log, failed, choices):
    """The same where logging ended."""
    count = int(line.split(" ")[0])
    placed = model.placed[:count]
    stop = min((it.place for name, it in model.events.list if name == "submit" and model.ids_of[id(it)] in failed), default=len(model.events.list))
    most = len(model.events.first(stop).completion_list())
    found = entries_of(log)
    if status != 3 or line != status_of(placed) + " logging_disabled\n" or count > max(most, 0):
        return "differs: another status"
    if found is None or found != as_read(placed)[: len(found)]:
        return "differs: the log is no beginning"
    if len(found) not in settled_counts(model.placed, count):
        return f"differs: {len(found)} entries are settled of {count}"
    return "logging ended" + (", a request failed" if failed else "")


def other_answer(wanted, told, left, wanted_left):
    """What an answer of another command is, which tells and leaves this with ample memory."""
    out, err, status = told
    if told == wanted and left == wanted_left:
        return "as with ample memory"
    is_named = re.fullmatch(r"dmlw: ((line \d+: )?2|20) Memory( after \d+ entries)?\n", err)
    if is_named and status in (1, 3) and left == OLDER and wanted[0].startswith(out):
        return "refused: " + err.strip()
    return "differs"


def seats_script():
    lines = [f"data {SEATS * WRITES}", "log 807", f"seats {SEATS}"]
    for seat in range(SEATS):
        lines += [f"s{seat} w {seat * WRITES + at} 1 {seat + 1}{seat + 1}" for at in range(WRITES)] + [f"s{seat} mark seat {seat}"]
    return ("\n".join(lines) + "\n").encode()


def seats_answer(told, log, is_one):
    """What an answer of `run` is, where the seats' schedule is any."""
    out, err, status = told
    if err:
        is_named = (err, status) in (("dmlw: 2 Memory\n", 1), ("dmlw: 20 Memory\n", 3), ("dmlw: 38 NoThread\n", 1))
        # Where the log's file finds no memory, the seats' lines and the status are printed before.
        is_late = err == "dmlw: 2 Memory\n" and out.count("\n") == SEATS + 1
        good = is_named and log == OLDER and (out == "" or is_late)
        return "refused: " + err.strip() + (" after lines" if out else "") if good else "differs: refused otherwise"
    lines = out.splitlines()
    tallies = [re.fullmatch(rf"seat {seat}: (\d+) done (\d+) logged (\d+) failed (\d+) not logged (\d+) refused", line) for seat, line in enumerate(lines[:SEATS])]
    if len(lines) != SEATS + 1 or None in tallies:
        return "differs: other lines"
    tallies = [list(map(int, it.groups())) for it in tallies]
    ended = lines[-1].endswith(" logging_disabled")
    found = entries_of(log)
    if any(sum(it) != WRITES + 1 or it[1] + it[3] > 1 for it in tallies) or (status != 0) != ended or status not in (0, 3) or found is None:
        return "differs: other counts"
    return seats_log(tallies, found, int(lines[-1].split(" ")[0]), ended, is_one)


def seats_log(tallies, found, count, ended, is_one):
    """The same, where a log was written: each mark that was told as logged stands in it, each seat's writes stand in their order, and none is missing but those that failed."""
    marks = [it[3] for it in found if it[2] & force.MARK]
    failed = sum(it[2] + it[4] for it in tallies)
    for seat, (_, logged, *_rest) in enumerate(tallies):
        mine = [it for it in found if not it[2] & force.MARK and it[0] // WRITES == seat]
        if logged and f"seat {seat}".encode() not in marks:
            return f"differs: the mark of seat {seat} is missing"
        if any(one[0] >= other[0] for one, other in zip(mine, mine[1:])) or any(it[3] != bytes([17 * (seat + 1)]) * force.SECTOR for it in mine):
            return f"differs: the writes of seat {seat}"
        if not ended and len(mine) + tallies[seat][2] < WRITES:
            return f"differs: a write of seat {seat} is missing"
    if len(set(marks)) != len(marks) or (is_one and failed > 1) or len(found) > count or (not ended and (len(found) != count or marks[-1] != b"dm-log-writes-end")):
        return "differs: other entries"
    return ("logging ended" if ended else "log whole") + (", a call failed" if failed else "") + (", a mark not logged" if sum(it[3] for it in tallies) else "")


def commands_of(text, model):
    """The commands over a script's log: the words, and what is told and left."""
    image, top = model.log_disk.image(), model.data.sectors
    zeroes = bytes(top * force.SECTOR)
    count = len(entries_of(image))
    for words, told in ((("list", "log"), force.listed(image)), (("status", "log"), (f"{status_of(model.placed[:count])}\n", "", 0))):
        yield words, told, None
    out, err, left = force.replayed(image, zeroes, f"entries:{count}")
    yield ("replay", "log", "zeroes", "out", f"entries:{count}"), (out, err, 0), left
    out, err, left = force.copied(image, 256)
    if left is not None:
        yield ("copy", "log", "out", "256"), (out, err, 0), left
    moment = model.events.last_moment()
    verdict = model.events.verdict(moment, zeroes)
    yield ("judge", "script", moment, "zeroes"), (verdict, "", int(verdict != "yes\n")), None
    # (which run `path` tells is its own to choose: what it tells with ample memory is asked of it)
    yield ("path", "script", moment, "zeroes"), None, None


def one(job):
    """Runs a command with one growth refused: what it asked for, and what its answer is."""
    program, library, is_last, kind, number, text, words, wanted, wanted_left = job
    with tempfile.TemporaryDirectory(dir=force.MEMORY) as folder:
        room = Room(program, library, folder, is_last)
        room.write("script", text.replace("|", "\n").encode() + b"\n" if kind != "run" else seats_script())
        room.write("log", OLDER)
        room.write("out", OLDER)
        model = model_of(text) if kind != "run" else None
        if kind == "command":
            room.write("log", model.log_disk.image())
            room.write("zeroes", bytes(model.data.sectors * force.SECTOR))
        if kind == "command" and wanted is None:
            wanted = room.run(10**9, *words)[0]
        told, asked = room.run(number, *words)
        if kind == "record":
            answer = record_answer(text, model, told, room.read("log"), is_last)
        elif kind == "run":
            answer = seats_answer(told, room.read("log"), is_last)
        else:
            answer = other_answer(wanted, told, room.read("out"), OLDER if wanted_left is None else wanted_left)
    return number, asked, answer, told


def model_of(text):
    run = force.Run(script_of(text))
    run.ids_of = {id(request): name for name, request in run.ids.items()}
    return run


def series(pool, name, job, out):
    """All N of a command. Prints how many, and what the answers were."""
    answers, first, size, differ = collections.Counter(), 1, 64, 0
    while True:
        done = pool.map(one, [(*job[:3], job[3], number, *job[4:]) for number in range(first, first + size)], 4)
        met = [it for it in done if it[1] >= it[0]]
        for number, _, answer, told in done:
            if (number, answer) in [(it[0], it[2]) for it in met] or answer.startswith("differs"):
                answers[answer] += 1
            if answer.startswith("differs"):
                differ += 1
                print(f"{name}, {number}: {answer}: {told!r}"[:1500])
        if len(met) < len(done):
            break
        first += size
    took = max([it[0] for it in met], default=first - 1)
    out.append(differ)
    print(f"{name}: N to {took}: " + ", ".join(f"{count} {answer}" for answer, count in answers.most_common()), flush=True)


def main():
    words = sys.argv[1:]
    is_last = words[:1] != ["--from"]
    program = program_of(words[not is_last :])
    differ = []
    with tempfile.TemporaryDirectory() as folder, Pool() as pool:
        library = f"{folder}/refuse.so"
        with open(f"{folder}/refuse.c", "w") as it:
            it.write(SOURCE)
        subprocess.run(["cc", "-O1", "-shared", "-fPIC", "-o", library, f"{folder}/refuse.c"], check=True)
        for name, text in SCRIPTS.items():
            series(pool, f"{name}, record", (program, library, is_last, "record", text, ("record", "script", "log"), None, None), differ)
            for asked, told, left in commands_of(text, model_of(text)):
                series(pool, f"{name}, {asked[0]}", (program, library, is_last, "command", text, asked, told, left), differ)
        series(pool, "four-seats, run", (program, library, is_last, "run", "", ("run", "script", "log"), None, None), differ)
    print(f"{sum(differ)} differ")
    return int(sum(differ) > 0)


if __name__ == "__main__":
    sys.exit(main())
