#!/usr/bin/env python3
"""serve: what `dmlw serve` costs, beside nbdkit's memory plugin under its log filter.

  serve.py [--dmlw PROGRAM] [--runs N]

Both servers are started by socat on a socket, and have the same client: `qemu-img bench` and `nbdcopy`. The CPU seconds are the server's, and the least of N runs (3 if left
out) counts. nbdkit's filter writes a line for each request, and dmlw its data too. Then a client that is written here sends a million small
requests, and half and a quarter as many, to see that the time grows with their number and no faster. The memory is the most that the server had.

The status is 1 if a bound is missed: 1.5 times nbdkit's CPU seconds, 2.3 times the time for twice the requests, and 16 MiB over what is stored. It needs socat, nbdkit,
qemu-img and nbdcopy.
"""
import argparse, os, random, shutil, socket, struct, subprocess, sys, tempfile, time

sys.dont_write_bytecode = True
missed = []


# Runs a server, and leaves its CPU seconds and its most memory in a file. A starter's TERM doesn't end it.
RUNNER = """import os, resource, signal, subprocess, sys
signal.signal(signal.SIGTERM, signal.SIG_IGN)
subprocess.run(sys.argv[1:])
used = resource.getrusage(resource.RUSAGE_CHILDREN)
with open("used.new", "w") as it:
    print(used.ru_utime + used.ru_stime, used.ru_maxrss / 1024, file=it)
os.rename("used.new", "used")
"""


def start(command, room):
    """Starts a server by socat, and returns socat's process."""
    with open(f"{room}/runner", "w") as it:
        it.write(RUNNER)
    for name in ("sock", "used"):
        if os.path.exists(f"{room}/{name}"):
            os.remove(f"{room}/{name}")
    words = ["socat", "-b", "262144", "-t", "600", f"UNIX-LISTEN:{room}/sock", f"EXEC:{sys.executable} runner {command}"]
    server = subprocess.Popen(words, cwd=room, stderr=subprocess.DEVNULL)
    while not os.path.exists(f"{room}/sock"):
        time.sleep(0.01)
    # (the socket is there a moment before somebody listens)
    time.sleep(0.2)
    return server


def ended(server, room):
    """Waits for a server, and returns its CPU seconds, and the most memory that it had, in MiB."""
    server.wait()
    while not os.path.exists(f"{room}/used"):
        time.sleep(0.01)
    with open(f"{room}/used") as it:
        cpu, memory = map(float, it.read().split())
    return cpu, memory


def beside_nbdkit(program, runs, room):
    servers = {
        "dmlw serve": f"{program} serve head first log",
        "nbdkit": "nbdkit -s --filter=log memory 128M logfile=requests",
    }
    uri = f"nbd+unix:///?socket={room}/sock"
    clients = {
        "50,000 writes of 4 KiB, one at a time": f"qemu-img bench -w -c 50000 -s 4096 -d 1 -f raw '{uri}'",
        "20,000 writes of 16 KiB, 16 at a time": f"qemu-img bench -w -c 20000 -s 16384 -d 16 -f raw '{uri}'",
        "an image of 128 MiB": f"nbdcopy --connections=1 --flush image '{uri}'",
    }
    with open(f"{room}/head", "w") as it:
        it.write("data 262144\nlog 1048576\n")
    with open(f"{room}/first", "wb") as it:
        it.truncate(1 << 27)
    with open(f"{room}/image", "wb") as it:
        it.write(random.Random(1).randbytes(1 << 27))
    print("| client | CPU s: dmlw serve | nbdkit | times | MiB: dmlw serve | stored |")
    print("|---|---|---|---|---|---|")
    for name, client in clients.items():
        least, most = {}, 0
        for _ in range(runs):
            for kind, command in servers.items():
                server = start(command, room)
                ran = subprocess.run(["sh", "-c", client], cwd=room, capture_output=True, text=True)
                cpu, memory = ended(server, room)
                if ran.returncode:
                    print(f"FAILED {kind}, {name}: {ran.stderr}")
                    missed.append(name)
                least[kind] = min(least.get(kind, cpu), cpu)
                if kind == "dmlw serve":
                    most = max(most, memory)
        # (what is stored: the data disk, and the log up to its last sector)
        last = int(subprocess.run([program, "status", "log"], cwd=room, capture_output=True, text=True).stdout.split()[1])
        stored = 128 + (last + 1) / 2048
        times = least["dmlw serve"] / least["nbdkit"]
        print(f"| {name} | {least['dmlw serve']:.2f} | {least['nbdkit']:.2f} | {times:.2f} | {most:.0f} | {stored:.0f} |", flush=True)
        if times > 1.5:
            missed.append(f"{name}: {times:.2f} times nbdkit's CPU seconds")
        if most > stored + 16:
            missed.append(f"{name}: {most:.0f} MiB, and {stored:.0f} are stored")


def small_requests(program, count, room):
    """Sends `count` small requests, a quarter of them writes and a quarter flushes, and returns the server's CPU seconds."""
    with open(f"{room}/head", "w") as it:
        it.write("data 2048\nlog 1048576\n")
    with open(f"{room}/first", "wb") as it:
        it.truncate(1 << 20)
    server = start(f"{program} serve head first log", room)
    link = socket.socket(socket.AF_UNIX)
    link.connect(f"{room}/sock")
    into, out = link.makefile("rb", 1 << 20), link.makefile("wb", 1 << 20)
    assert into.read(18) == b"NBDMAGICIHAVEOPT\0\3"
    # (flag 2: no zeroes after the answer to EXPORT_NAME)
    out.write(struct.pack(">I", 3) + b"IHAVEOPT" + struct.pack(">II", 1, 0))
    out.flush()
    into.read(10)

    # (64 at a time: socat waits for the server to read, so a client that reads no answers would stop both)
    for begun in range(0, count, 64):
        numbers = range(begun, min(begun + 64, count))
        for number in numbers:
            kind = (1, 0, 3, 0)[number & 3]
            at = 0 if kind == 3 else 512 * (number % 2048)
            out.write(struct.pack(">IHHQQI", 0x25609513, 0, kind, number, at, 0 if kind == 3 else 512) + (bytes(512) if kind == 1 else b""))
        out.flush()
        for number in numbers:
            magic, error, cookie = struct.unpack(">IIQ", into.read(16))
            assert (magic, error, cookie) == (0x67446698, 0, number), (magic, error, cookie, number)
            if number & 1:
                into.read(512)
    out.write(struct.pack(">IHHQQI", 0x25609513, 0, 2, 0, 0, 0))
    out.flush()
    link.close()
    into.close()
    out.close()
    return ended(server, room)


def main():
    asks = argparse.ArgumentParser(description=__doc__, formatter_class=argparse.RawDescriptionHelpFormatter)
    asks.add_argument("--dmlw")
    asks.add_argument("--runs", type=int, default=3)
    options = asks.parse_args()
    here = os.path.dirname(os.path.dirname(os.path.abspath(__file__)))
    program = os.path.abspath(options.dmlw or subprocess.run([f"{here}/dmlw", "--which"], capture_output=True, text=True).stdout.strip())
    lacking = [it for it in ("socat", "nbdkit", "qemu-img", "nbdcopy") if not shutil.which(it)]
    if lacking:
        print(f"left out: {', '.join(lacking)} isn't installed")
        return 2
    with tempfile.TemporaryDirectory() as room:
        beside_nbdkit(program, options.runs, room)
    print()
    print("| small requests | CPU s | MiB |")
    print("|---|---|---|")
    before = None
    for count in (250_000, 500_000, 1_000_000):
        with tempfile.TemporaryDirectory() as room:
            cpu, memory = small_requests(program, count, room)
        print(f"| {count:,} | {cpu:.2f} | {memory:.0f} |", flush=True)
        if before and cpu > 2.3 * before:
            missed.append(f"{count:,} requests: {cpu / before:.2f} times the time of half as many")
        before = cpu
    for it in missed:
        print(f"missed: {it}")
    return 1 if missed else 0


if __name__ == "__main__":
    raise SystemExit(main())
