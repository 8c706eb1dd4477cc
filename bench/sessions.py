#!/usr/bin/env python3
"""sessions: plays the sessions of bench/sessions.t with `dmlw serve`, and compares each byte of the answers.

  bench/sessions.py [PROGRAM [FILE]]    PROGRAM: the built program, else the one that ./dmlw runs; FILE: other sessions than those of bench/sessions.t

A session is data: what a client sends, what the server has to send, standard error, the exit status, and the log. bench/sessions.t explains its lines. Nothing random and no
time is in a session, so that the output is the same each time. A session fails if anything differs. Then all that differs is printed. The last line is `N passed, M failed`, and
the status is 1 if a session failed. It needs nothing but Python 3 and the program.
"""
import os, re, subprocess, sys, tempfile, threading, time
from concurrent.futures import ThreadPoolExecutor

from measure import ROOT, program_of

# A server that hasn't ended after this many seconds is killed, and its session fails. So the time shows only if there is a fault.
PATIENCE = 10

# Sessions are played this many at a time, each in a folder of its own, and reported in their order.
AT_ONCE = 4


class Session:
    """A paragraph at the margin, which is the session's name, and the commands below it, each with its lines."""

    def __init__(self, line, name):
        self.line, self.name, self.commands = line, name, []


class Command:
    """A command, with its lines in their order: each has its mark (`>`, `+`, `~`, `!`, `[` of a status, or nothing for the output), its text and its number."""

    def __init__(self, line, words):
        self.line, self.words, self.lines = line, words, []

    def of(self, mark):
        return [text for it, text, _ in self.lines if it == mark]


def bytes_of(text, names):
    """The bytes that a line means: words of hexadecimal digits, `41*512` for 512 bytes 41, and names. What follows `#` is for people."""
    found = bytearray()
    for word in text.split("#")[0].split():
        if word in names:
            found += names[word]
        elif again := re.fullmatch(r"([0-9a-f]{2})\*(\d+)", word):
            found += bytes.fromhex(again[1]) * int(again[2])
        else:
            found += bytes.fromhex(word)
    return bytes(found)


def read_sessions(path):
    """The sessions of a file, and the bytes of its names."""
    sessions, names, is_prose = [], {}, False
    with open(path, encoding="utf-8") as file:
        for number, line in enumerate(file.read().split("\n"), 1):
            if line and not line.startswith("  "):
                # the lines of a paragraph are one name
                if is_prose:
                    sessions[-1].name += f" {line}"
                else:
                    sessions.append(Session(number, line))
                is_prose = True
                continue
            is_prose = False
            mark, rest = line[2:4], line[4:]
            if mark == "$ ":
                sessions[-1].commands.append(Command(number, rest))
            elif mark == "= ":
                name, _, text = rest.partition(" ")
                names[name] = bytes_of(text, names)
            elif mark in ("> ", "+ ", "~ ", "! "):
                sessions[-1].commands[-1].lines.append((mark[0], rest, number))
            elif status := re.fullmatch(r"  \[(\d+)\]", line):
                sessions[-1].commands[-1].lines.append(("[", status[1], number))
            elif line.strip():
                sessions[-1].commands[-1].lines.append(("", line[2:], number))
    return [it for it in sessions if it.commands], names


def shown(data):
    """Bytes as a session's lines have them, with equal neighbours written once."""
    runs = re.finditer(rb"(.)\1*", data, re.S)
    return " ".join(f"{it[1][0]:02x}" + (f"*{len(it[0])}" if len(it[0]) > 1 else "") for it in runs) or "nothing"


class Client:
    """Talks with a server at its pipes. Threads read what the server sends, so that it never waits for its client to read. A server that takes too long is killed."""

    def __init__(self, words, room):
        self.server = subprocess.Popen(words, cwd=room, stdin=subprocess.PIPE, stdout=subprocess.PIPE, stderr=subprocess.PIPE, bufsize=0)
        self.sent, self.err, self.news, self.is_ended, self.is_killed = bytearray(), b"", threading.Condition(), False, False
        self.readers = [threading.Thread(target=it) for it in (self.read, self.read_err)]
        self.timer = threading.Timer(PATIENCE, self.kill)
        for it in (*self.readers, self.timer):
            it.start()

    def read(self):
        while piece := self.server.stdout.read(1 << 16):
            with self.news:
                self.sent += piece
                self.news.notify()
        with self.news:
            self.is_ended = True
            self.news.notify()

    def read_err(self):
        while piece := self.server.stderr.read(1 << 16):
            self.err += piece

    def kill(self):
        self.is_killed = True
        self.server.kill()

    def send(self, data):
        view = memoryview(data)
        try:
            while view:
                view = view[self.server.stdin.write(view) :]
        except BrokenPipeError:
            # the server has ended: if that was too early, its answers show it
            pass

    def wait_for(self, count):
        """Waits until the server has sent this many bytes in all, or has ended."""
        with self.news:
            self.news.wait_for(lambda: len(self.sent) >= count or self.is_ended)

    def end(self):
        """Ends the client's bytes, and returns the server's status, or None if it was killed."""
        self.server.stdin.close()
        status = self.server.wait()
        self.timer.cancel()
        for it in (*self.readers, self.timer):
            it.join()
        self.server.stdout.close()
        self.server.stderr.close()
        return None if self.is_killed else status


def serve(program, command, room, names):
    """Plays a session's dialog. Returns what the server sent, the lines of its standard error, and its status."""
    client, wanted = Client([program, *command.words.split()[1:]], room), 0
    for mark, text, _ in command.lines:
        if mark == "":
            wanted += len(bytes_of(text, names))
        if mark in (">", "+", "~"):
            # the answers that come before it have to be there
            client.wait_for(wanted)
        if mark == ">":
            client.send(bytes_of(text, names))
        if mark == "~":
            time.sleep(float(text))
        if mark == "+":
            with open(f"{room}/marks", "ab") as it:
                it.write(text.encode("latin-1").decode("unicode_escape").encode("latin-1"))
    client.wait_for(wanted)
    status = client.end()
    return bytes(client.sent), client.err.decode("utf-8", "replace").splitlines(), status


def answers_differ(command, sent, names):
    """Says how what the server sent differs from what it has to send, if it does."""
    wanted, place = b"", 0
    for mark, text, number in command.lines:
        if mark == "":
            place = number if sent.startswith(wanted) else place
            wanted += bytes_of(text, names)
    if sent != wanted:
        at = next((at for at, (one, other) in enumerate(zip(sent, wanted)) if one != other), min(len(sent), len(wanted)))
        where = f"at line {place}" if at < len(wanted) else "at the end"
        yield f"the server has to send {len(wanted)} bytes, and sent {len(sent)}. They differ from byte {at} on, {where}\n    has to: {shown(wanted)}\n    sent:   {shown(sent)}"


def sectors_of(path):
    """What `show` prints: a file's length, and its sectors that aren't zeroes."""
    if not os.path.exists(path):
        return ["no such file"]
    with open(path, "rb") as it:
        data = it.read()
    sectors = [data[at : at + 512] for at in range(0, len(data), 512)]
    return [f"{len(data)} bytes", *(f"{number}: {shown(it)}" for number, it in enumerate(sectors) if any(it))]


def differences(program, command, room, names):
    """Runs a command, and returns what differs from what it has to show."""
    verb, _, rest = command.words.partition(" ")
    wanted_status = int((command.of("[") or ["0"])[0])
    if verb == "head":
        with open(f"{room}/head", "w") as it:
            it.writelines(f"{line}\n" for line in command.of(">"))
        # FIRST is as large as the data disk. It has zeroes, and a command `first` gives its first bytes
        sectors = int(command.of(">")[0].split()[1])
        with open(f"{room}/first", "wb") as it:
            it.truncate(sectors * 512)
        return
    if verb == "first":
        with open(f"{room}/first", "r+b") as it:
            it.write(bytes_of(rest, names))
        return
    if verb == "length":
        os.truncate(f"{room}/first", int(rest))
        return
    if verb == "write":
        with open(f"{room}/{rest}", "w") as it:
            it.writelines(f"{line}\n" for line in command.of(">"))
        return
    if verb == "show":
        out, err, status = sectors_of(f"{room}/{rest}"), [], 0
        wanted = command.of("")
    elif command.words.startswith("dmlw serve "):
        sent, err, status = serve(program, command, room, names)
        yield from answers_differ(command, sent, names)
        out = wanted = []
    else:
        ran = subprocess.run([program, *command.words.split()[1:]], cwd=room, stdin=subprocess.DEVNULL, capture_output=True)
        out, err = (it.decode("utf-8", "replace").splitlines() for it in (ran.stdout, ran.stderr))
        status, wanted = ran.returncode, command.of("")
    for what, found, has_to in (("the output", out, wanted), ("standard error", err, command.of("!"))):
        if found != has_to:
            yield "\n".join([f"{what} differs", *(f"    has to: {it}" for it in has_to or ["nothing"]), *(f"    is:     {it}" for it in found or ["nothing"])])
    if status is None:
        yield f"the server didn't end in {PATIENCE} seconds, and was killed"
    elif status != wanted_status:
        yield f"the status has to be {wanted_status}, and is {status}"


def main():
    if len(sys.argv) > 3 or sys.argv[1:2] in (["-h"], ["--help"]):
        print(__doc__.strip(), file=sys.stderr)
        return 2
    program = program_of(sys.argv[1:2])
    # a fault is one line, as if no one asked for an explanation
    os.environ.pop("DMLW_EXPLAIN", None)
    path = sys.argv[2] if len(sys.argv) > 2 else f"{ROOT}/bench/sessions.t"
    sessions, names = read_sessions(path)

    def play(session):
        with tempfile.TemporaryDirectory() as room:
            return [f"  line {command.line}, {command.words}: {it}" for command in session.commands for it in differences(program, command, room, names)]

    failed = 0
    with ThreadPoolExecutor(AT_ONCE) as players:
        for session, found in zip(sessions, players.map(play, sessions)):
            if found:
                print("\n".join([f"FAILED line {session.line}: {session.name}", *found]))
                failed += 1
    print(f"{len(sessions) - failed} passed, {failed} failed")
    return 1 if failed or not sessions else 0


if __name__ == "__main__":
    sys.exit(main())
