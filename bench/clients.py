#!/usr/bin/env python3
"""clients: `dmlw serve` with a client of its own and with real ones.

  clients.py [--dmlw PROGRAM] [--requests N] [--seed N]

A client that is written here makes N random requests (10,000 if left out), beside a model of the disk: each answer has to be the model's, and the log, replayed on the first
content, has to give the model's disk. It also sends what isn't of the protocol: the log has to be there all the same. Then qemu-io, nbdcopy and nbdsh write through socat; each
that isn't installed is said to be left out. The last line counts.
"""
import argparse, os, random, shutil, signal, struct, subprocess, sys, tempfile, time

sys.dont_write_bytecode = True
READ, WRITE, DISC, FLUSH, TRIM = 0, 1, 2, 3, 4
FUA = 1
EIO, EINVAL, ENOSPC = 5, 22, 28
passed, failed, left_out = [], [], []


def note(name, is_right, why=""):
    (passed if is_right else failed).append(name)
    print(f"{'ok    ' if is_right else 'FAILED'} {name}{': ' + why if why and not is_right else ''}", flush=True)


class Client:
    """A client at the pipes of a server."""

    def __init__(self, program, folder, head, first, marks=None):
        self.folder = folder
        for name, text in (("head", head), ("first", first), ("marks", marks or b"")):
            with open(f"{folder}/{name}", "wb") as it:
                it.write(text)
        words = [program, "serve", "head", "first", "log", *(["--marks", "marks"] if marks is not None else [])]
        self.server = subprocess.Popen(words, cwd=folder, stdin=subprocess.PIPE, stdout=subprocess.PIPE, stderr=subprocess.PIPE)
        self.cookie = 0

    def send(self, data):
        self.server.stdin.write(data)
        self.server.stdin.flush()

    def take(self, count):
        got = self.server.stdout.read(count)
        if len(got) != count:
            raise EOFError(f"{len(got)} bytes in place of {count}")
        return got

    def greet(self, flags=3):
        assert self.take(18) == b"NBDMAGICIHAVEOPT\0\3"
        self.send(struct.pack(">I", flags))

    def option(self, number, data=b""):
        """Asks for an option, and returns the types and the data of its replies up to the last."""
        self.send(b"IHAVEOPT" + struct.pack(">II", number, len(data)) + data)
        replies = []
        while True:
            magic, asked, kind, length = struct.unpack(">QIII", self.take(20))
            assert magic == 0x3E889045565A9 and asked == number
            replies.append((kind, self.take(length)))
            if kind == 1 or kind >= 1 << 31:
                return replies

    def go(self):
        self.greet()
        replies = self.option(7, struct.pack(">IH", 0, 0))
        info = [it for kind, it in replies if kind == 3 and it[:2] == b"\0\0"][0]
        self.size, self.flags = struct.unpack(">QH", info[2:])
        return replies

    def ask(self, kind, offset, length, data=b"", flags=0):
        """Makes a request, and returns its error and its data."""
        self.cookie += 1
        self.send(struct.pack(">IHHQQI", 0x25609513, flags, kind, self.cookie, offset, length) + data)
        magic, error, cookie = struct.unpack(">IIQ", self.take(16))
        assert magic == 0x67446698 and cookie == self.cookie
        return error, self.take(length) if kind == READ and not error else b""

    def leave(self):
        self.send(struct.pack(">IHHQQI", 0x25609513, 0, DISC, 0, 0, 0))
        return self.end()

    def end(self):
        self.server.stdin.close()
        said = self.server.stderr.read().decode()
        return self.server.wait(), said


def replayed(program, folder):
    """Returns the image that the whole log replays to, or why it can't be replayed."""

    def run(*words):
        return subprocess.run([program, *words], cwd=folder, capture_output=True, text=True)

    status = run("status", "log")
    if status.returncode:
        return status.stderr.encode()
    entries = status.stdout.split()[0]
    ran = run("replay", "log", "first", "out", f"entries:{entries}")
    if ran.returncode:
        return ran.stderr.encode()
    with open(f"{folder}/out", "rb") as it:
        return it.read()


def random_requests(program, count, seed, room):
    chance = random.Random(seed)
    sectors = 2048
    first = chance.randbytes(sectors * 512)
    model = bytearray(first)
    client = Client(program, room, f"data {sectors}\nlog {1 << 20}\n".encode(), first)
    client.go()
    kinds = {READ: 0, WRITE: 0, FLUSH: 0, TRIM: 0}
    for number in range(count):
        kind = chance.choice([READ, WRITE, WRITE, FLUSH, TRIM])
        at, many = chance.randrange(sectors), 1 + int(chance.expovariate(0.2))
        flags = FUA if kind in (WRITE, TRIM) and chance.random() < 0.3 else 0
        if chance.random() < 0.03:
            # what is refused: past the end, not whole sectors, unknown
            offset, length, wanted = chance.choice([((sectors - 1) * 512, 1024, ENOSPC), (at * 512 + 1, 512, EINVAL), (at * 512, 100, EINVAL)])
            error, _ = client.ask(kind if kind != FLUSH else READ, offset, length, bytes(length) if kind == WRITE else b"")
            if error != wanted:
                return f"request {number}: error {error} in place of {wanted}"
            continue
        many = min(many, sectors - at)
        kinds[kind] += 1
        data = chance.randbytes(many * 512) if kind == WRITE else b""
        error, got = client.ask(kind, 0 if kind == FLUSH else at * 512, 0 if kind == FLUSH else many * 512, data, flags)
        if error:
            return f"request {number}: error {error}"
        if kind == READ and got != model[at * 512 : (at + many) * 512]:
            return f"request {number}: other data"
        if kind == WRITE:
            model[at * 512 : (at + many) * 512] = data
        if kind == TRIM:
            model[at * 512 : (at + many) * 512] = bytes(many * 512)
    status, said = client.leave()
    if status:
        return f"status {status}: {said}"
    if replayed(program, room) != bytes(model):
        return "the log replays to another disk"
    return ""


def odd_clients(program):
    """What isn't of the protocol: the session ends or the request is refused, and the log has what was done before."""

    def case(name, act, entries):
        with tempfile.TemporaryDirectory() as room:
            client = Client(program, room, b"data 64\nlog 256\n", bytes(64 * 512))
            try:
                act(client)
            except (EOFError, BrokenPipeError, AssertionError) as error:
                note(name, False, repr(error))
                client.server.kill()
                return
            try:
                client.server.stdin.close()
            except BrokenPipeError:
                pass
            client.server.wait()
            listed = subprocess.run([program, "list", "log"], cwd=room, capture_output=True, text=True).stdout.splitlines()
            note(name, len(listed) == entries + 2, f"{listed}")

    def wrote(client):
        client.go()
        assert client.ask(WRITE, 0, 512, b"a" * 512)[0] == 0

    def other_magic(client):
        wrote(client)
        client.send(b"x" * 28)

    def half_a_request(client):
        wrote(client)
        client.send(struct.pack(">IHHQQI", 0x25609513, 0, WRITE, 9, 512, 1024) + b"b" * 600)

    def unknown_option(client):
        client.greet()
        assert client.option(99, b"abc")[-1][0] >= 1 << 31
        assert client.option(7, struct.pack(">IH", 0, 0))[-1][0] == 1
        assert client.ask(WRITE, 0, 512, b"a" * 512)[0] == 0
        client.send(struct.pack(">IHHQQI", 0x25609513, 0, DISC, 0, 0, 0))

    def long_option(client):
        client.greet()
        client.send(b"IHAVEOPT" + struct.pack(">II", 7, 1 << 30))

    def long_write(client):
        wrote(client)
        client.send(struct.pack(">IHHQQI", 0x25609513, 0, WRITE, 9, 0, (1 << 32) - 512) + b"c" * 100000)

    def unknown_request(client):
        wrote(client)
        assert client.ask(6, 0, 512)[0] == EINVAL
        assert client.ask(77, 0, 512)[0] == EINVAL
        assert client.ask(WRITE, 512, 512, b"b" * 512, FUA)[0] == 0

    def by_name(client):
        client.greet(1)
        client.send(b"IHAVEOPT" + struct.pack(">II", 1, 3) + b"abc")
        size, flags = struct.unpack(">QH", client.take(10))
        assert size == 64 * 512 and flags & 45 == 45 and client.take(124) == bytes(124)
        assert client.ask(WRITE, 0, 512, b"a" * 512)[0] == 0

    case("another magic ends a session", other_magic, 1)
    case("half a request ends a session", half_a_request, 1)
    case("an option that isn't known is refused", unknown_option, 1)
    case("an option that is too long ends a session", long_option, 0)
    case("a write past the limit ends or is refused", long_write, 1)
    case("a request that isn't known is refused", unknown_request, 2)
    case("an export is asked for by name", by_name, 1)


def marks(program):
    with tempfile.TemporaryDirectory() as room:
        client = Client(program, room, b"data 64\nlog 1024\n", bytes(64 * 512), marks=b"")
        client.go()
        wanted = []
        for number in range(50):
            assert client.ask(WRITE, 512 * (number % 64), 512, bytes([number]) * 512)[0] == 0
            assert client.ask(FLUSH, 0, 0)[0] == 0
            wanted += ["write", "flush", f"mark m{number}"]
            with open(f"{room}/marks", "a") as it:
                it.write(f"m{number}\n")
        client.leave()
        listed = subprocess.run([program, "list", "log"], cwd=room, capture_output=True, text=True).stdout.splitlines()[1:-1]
        found = [" ".join(it.split()[2:4]) if " mark " in it else it.split()[2] for it in listed]
        # a flush's entry takes the plain writes before it along
        note("each mark stands behind what was flushed before it", [it for it in found if it.startswith("mark")] == [it for it in wanted if it.startswith("mark")]
             and all(found.index(f"mark m{n}") < (found.index(f"mark m{n + 1}") if n < 49 else len(found)) for n in range(50)) and len(found) == 150, f"{found[:12]}")


def marks_between_writes(program):
    """Writes with FUA are logged at once, so the log shows between which of them a mark was found."""
    with tempfile.TemporaryDirectory() as room:
        client = Client(program, room, b"data 64\nlog 1024\n", bytes(64 * 512), marks=b"old\n")
        client.go()
        for number, text in enumerate(("one\ntwo\nha", "lf\n", "last\n")):
            assert client.ask(WRITE, 512 * number, 512, b"a" * 512, FUA)[0] == 0
            with open(f"{room}/marks", "a") as it:
                it.write(text)
        client.leave()
        listed = subprocess.run([program, "list", "log"], cwd=room, capture_output=True, text=True).stdout.splitlines()[1:-1]
        found = [it.split()[3] if it.split()[2] == "mark" else "-" for it in listed]
        note("a mark stands before the request that was sent after it", found == ["-", "one", "two", "-", "half", "-", "last"], f"{listed}")


def time_passes(program):
    with tempfile.TemporaryDirectory() as room:
        client = Client(program, room, b"data 64\nlog 256\ndata-layer 0 64 flakey disk 0 4 3600 1 error_writes\n", bytes(64 * 512))
        client.go()
        early = client.ask(WRITE, 0, 512, b"a" * 512)[0]
        time.sleep(4.1)
        late = client.ask(WRITE, 0, 512, b"b" * 512)[0]
        client.leave()
        note("the layers have the session's time", (early, late) == (0, EIO), f"{early} {late}")


def last_words(program):
    """What is said at a session's end: the counts of the requests, and why it broke off."""

    def case(name, act, wanted):
        with tempfile.TemporaryDirectory() as room:
            client = Client(program, room, b"data 4096\nlog 8192\n", bytes(4096 * 512))
            act(client)
            _, said = client.end()
            note(name, said.splitlines()[1:] == wanted, said)

    def each_kind(client):
        client.go()
        assert client.ask(WRITE, 0, 2056 * 512, b"a" * (2056 * 512))[0] == 0
        for kind, flags, count in ((WRITE, 0, 2), (WRITE, FUA, 3), (READ, 0, 4), (TRIM, FUA, 2), (TRIM, 0, 4), (FLUSH, 0, 5), (6, 0, 1)):
            for _ in range(count):
                client.ask(kind, 0, 0 if kind == FLUSH else 512, b"b" * 512 if kind == WRITE else b"", flags)
        client.send(struct.pack(">IHHQQI", 0x25609513, 0, DISC, 0, 0, 0))

    def half(client):
        client.go()
        client.send(b"\x25\x60\x95")

    def leaves(client):
        client.greet()
        assert client.option(2) == [(1, b"")]

    none = "requests: 0 reads, 0 writes, 0 flushes, 0 trims; 0 with FUA, 0 split"
    case("each request is counted", each_kind, ["requests: 4 reads, 6 writes, 5 flushes, 6 trims; 5 with FUA, 1 split"])
    case("a session that broke off is told", half, [none, "dmlw: the session broke off: the client's bytes ended"])
    case("a client that left at the handshake is told", leaves, [none, "dmlw: the client left at the handshake"])


def through_socat(program, room, head, first, act):
    """Starts a server behind a socket, lets `act` use it, and waits for its end."""
    for name, text in (("head", head), ("first", first)):
        with open(f"{room}/{name}", "wb") as it:
            it.write(text)
    words = f"trap '' TERM; exec {program} serve head first log"
    with open(f"{room}/start", "w") as it:
        it.write(words)
    server = subprocess.Popen(["socat", "-t", "600", f"UNIX-LISTEN:{room}/sock", "EXEC:sh start"], cwd=room, stderr=subprocess.PIPE)
    for _ in range(100):
        if os.path.exists(f"{room}/sock"):
            break
        time.sleep(0.05)
    said = act(f"nbd+unix:///?socket={room}/sock")
    try:
        server.wait(60)
    except subprocess.TimeoutExpired:
        # no client came, or the server doesn't end
        server.kill()
    return said


def real_clients(program, seed):
    if not shutil.which("socat"):
        left_out.append("socat")
        return
    chance = random.Random(seed)
    image = chance.randbytes(1 << 20) + bytes(1 << 20)
    head, first = b"data 4096\nlog 65536\n", bytes(4096 * 512)

    def run(*words):
        return subprocess.run(words, capture_output=True, text=True, timeout=120)

    if shutil.which("qemu-io"):
        with tempfile.TemporaryDirectory() as room:
            wishes = ["write -P 0x41 4k 8k", "write -f -P 0x42 0 512", "read -P 0x41 4k 8k", "read -P 0x42 0 512", "flush", "discard 16k 8k", "read -P 0 16k 8k", "write -P 0x43 1M 1M", "read -P 0x43 1M 1M"]
            ran = through_socat(program, room, head, first, lambda uri: run("qemu-io", "-f", "raw", *[it for wish in wishes for it in ("-c", wish)], uri))
            model = bytearray(4096 * 512)
            model[4096:12288], model[:512], model[1 << 20 :] = b"A" * 8192, b"B" * 512, b"C" * (1 << 20)
            note("qemu-io writes and reads", ran.returncode == 0 and "failed" not in ran.stdout + ran.stderr and replayed(program, room) == bytes(model), ran.stdout + ran.stderr)
    else:
        left_out.append("qemu-io")
    if shutil.which("nbdcopy"):
        with tempfile.TemporaryDirectory() as room:
            with open(f"{room}/image", "wb") as it:
                it.write(image)
            ran = through_socat(program, room, head, first, lambda uri: run("nbdcopy", "--flush", f"{room}/image", uri))
            note("nbdcopy copies an image", ran.returncode == 0 and replayed(program, room) == image, ran.stderr)
        with tempfile.TemporaryDirectory() as room:
            with open(f"{room}/image", "wb") as it:
                it.write(image)
            ran = through_socat(program, room, head, first, lambda uri: run("nbdcopy", "--request-size=2097152", f"{room}/image", uri))
            note("nbdcopy copies with requests over 1 MiB", ran.returncode == 0 and replayed(program, room) == image, ran.stderr)
    else:
        left_out.append("nbdcopy")
    # (nbdsh takes the first python3 on the PATH, which may be another than the system's)
    system = ("env", "PATH=/usr/bin:/bin")
    if shutil.which("nbdsh") and run(*system, "python3", "-c", "import nbd").returncode == 0:
        with tempfile.TemporaryDirectory() as room:
            script = "import random; r = random.Random(5); m = bytearray(h.get_size())\nfor n in range(500):\n    o = 512 * r.randrange(4000); d = r.randbytes(512 * (1 + r.randrange(8)))\n    h.pwrite(d, o, nbd.CMD_FLAG_FUA if n % 3 == 0 else 0); m[o:o + len(d)] = d\n    assert h.pread(len(d), o) == d\nh.flush(); assert h.pread(len(m), 0) == m"
            ran = through_socat(program, room, head, first, lambda uri: run(*system, "nbdsh", "-u", uri, "-c", script))
            note("nbdsh writes and reads", ran.returncode == 0, ran.stderr)
    else:
        left_out.append("nbdsh")


def refused(program):
    def status(head, first):
        with tempfile.TemporaryDirectory() as room:
            for name, text in (("head", head), ("first", first)):
                with open(f"{room}/{name}", "wb") as it:
                    it.write(text)
            ran = subprocess.run([program, "serve", "head", "first", "log"], cwd=room, stdin=subprocess.DEVNULL, capture_output=True, text=True)
            return ran.returncode, ran.stdout, ran.stderr, os.path.exists(f"{room}/log")

    found = status(b"data 8\nlog 8\n\nclose\n", bytes(4096))
    note("a line after the head is refused", found == (1, "", "dmlw: line 4: 30 BadLine\n", False), f"{found}")
    found = status(b"data 8\nlog 8\n", bytes(512))
    note("a first content of another length is refused", found == (1, "", "dmlw: 32 File\n", False), f"{found}")
    for name in ("head", "first"):
        with tempfile.TemporaryDirectory() as room:
            texts = {"head": b"data 8\nlog 8\n", "first": bytes(4096)}
            for it, text in texts.items():
                with open(f"{room}/{it}", "wb") as file:
                    file.write(text)
            os.link(f"{room}/{name}", f"{room}/log")
            ran = subprocess.run([program, "serve", "head", "first", "log"], cwd=room, stdin=subprocess.DEVNULL, capture_output=True, text=True)
            with open(f"{room}/{name}", "rb") as file:
                note(f"a log that is the {name} by another name is refused", (ran.returncode, ran.stdout, ran.stderr) == (1, "", "dmlw: 32 File\n") and file.read() == texts[name], ran.stderr)
    ran = subprocess.run([program, "serve", "head"], capture_output=True, text=True)
    note("words that lack are told", ran.returncode == 2 and "FIRST" in ran.stderr, ran.stderr)


def full_log(program):
    with tempfile.TemporaryDirectory() as room:
        client = Client(program, room, b"data 64\nlog 8\n", bytes(64 * 512))
        client.go()
        errors = [client.ask(WRITE, 512 * n, 512, bytes([n]) * 512, FUA)[0] for n in range(12)]
        status, said = client.leave()
        note("a full log ends logging, and the session goes on", errors == [0] * 12 and status == 3 and "unrecorded" in said, f"{errors} {status} {said}")


def failing_layers(program):
    with tempfile.TemporaryDirectory() as room:
        client = Client(program, room, b"data 64\nlog 256\ndata-layer 0 64 flakey disk 0 0 3600 1 error_writes\n", bytes(64 * 512))
        client.go()
        note("a layer that fails writes is told as EIO", client.ask(WRITE, 0, 512, b"a" * 512)[0] == EIO and client.ask(READ, 0, 512) == (0, bytes(512)))
        client.leave()


def main():
    asks = argparse.ArgumentParser(description=__doc__, formatter_class=argparse.RawDescriptionHelpFormatter)
    asks.add_argument("--dmlw")
    asks.add_argument("--requests", type=int, default=10_000)
    asks.add_argument("--seed", type=int, default=1)
    options = asks.parse_args()
    here = os.path.dirname(os.path.dirname(os.path.abspath(__file__)))
    program = os.path.abspath(options.dmlw or subprocess.run([f"{here}/dmlw", "--which"], capture_output=True, text=True).stdout.strip())
    signal.signal(signal.SIGPIPE, signal.SIG_IGN)
    with tempfile.TemporaryDirectory() as room:
        why = random_requests(program, options.requests, options.seed, room)
        note(f"{options.requests} random requests", not why, why)
    odd_clients(program)
    marks(program)
    marks_between_writes(program)
    time_passes(program)
    last_words(program)
    refused(program)
    full_log(program)
    failing_layers(program)
    real_clients(program, options.seed)
    for it in left_out:
        print(f"left out {it}: it isn't installed")
    print(f"{len(passed)} passed, {len(failed)} failed")
    return 1 if failed else 0


if __name__ == "__main__":
    raise SystemExit(main())
