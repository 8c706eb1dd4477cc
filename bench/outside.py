#!/usr/bin/env python3
"""outside: tries the built program on real files, pipes and a full disk, where no contract can see it.

  outside.py [PROGRAM]      PROGRAM: the built program, else the one that ./dmlw runs

Prints a line for each trial, and the counts at the end. Ends with status 1 if one fails. The trials that need the right to mount or to set up a loop device, or a file
system's own tools, are left out if these are missing, with a line that begins with `--`.
"""
import hashlib, lzma, os, pathlib, pty, re, shutil, signal, struct, subprocess, sys, tempfile, threading, time

import release
from measure import program_of

ROOT = pathlib.Path(__file__).resolve().parent.parent
PROGRAM = program_of(sys.argv[1:2])
FIRST = b"data 16\nlog 32\nw a 5 1 41\nc a\nf b\nc b\nclose\n"
TOLD = b"a ok\nb ok\n3 4\n"
passed, failed = [], []
os.environ.pop("DMLW_EXPLAIN", None)


def run(*words, **how):
    return subprocess.run([PROGRAM, *map(str, words)], capture_output=True, **how)


def trial(name, holds, seen=""):
    print(f"{'ok  ' if holds else 'FAIL'} {name}" + ("" if holds else f": {seen}"))
    (passed if holds else failed).append(name)


def beside(folder):
    return [it.name for it in folder.iterdir() if "dmlw-tmp" in it.name]


def files(room):
    script, log = room / "script", room / "log"
    script.write_bytes(FIRST)
    ran = run("record", script, log)
    whole = log.read_bytes()
    trial("a log is written", (ran.returncode, ran.stdout, ran.stderr) == (0, TOLD, b"") and len(whole) == 16384, ran)
    log.write_bytes(b"older and longer" * 4096)
    log.chmod(0o640)
    inode = log.stat().st_ino
    run("record", script, log)
    trial("an older log is replaced whole, with its mode", log.read_bytes() == whole and log.stat().st_mode & 0o777 == 0o640 and log.stat().st_ino != inode)
    link = room / "link"
    link.symlink_to("log")
    log.write_bytes(b"older")
    run("record", script, link)
    trial("a link stays a link", link.is_symlink() and log.read_bytes() == whole)
    ran = run("record", script, script)
    trial("a script isn't written over", (ran.returncode, ran.stdout, ran.stderr) == (1, b"", b"dmlw: 32 File\n") and script.read_bytes() == FIRST, ran)
    for make in (os.symlink, os.link):
        other = room / "other"
        make(script, other)
        ran = run("record", script, other)
        trial(f"nor by another name ({make.__name__})", ran.returncode == 1 and script.read_bytes() == FIRST, ran)
        other.unlink()
    log.write_bytes(b"older")
    script.write_bytes(FIRST[:-6] + b"no\n")
    ran = run("record", script, log)
    trial("a refused script leaves the older log", ran.returncode == 1 and log.read_bytes() == b"older", ran)
    script.write_bytes(FIRST)
    for length in (242, 243, 255):
        long = room / ("l" * length)
        for older in (b"", b"older"):
            long.write_bytes(older) if older else None
            ran = run("record", script, long)
            trial(f"a log's name may have {length} bytes" + (", over an older log" if older else ""), ran.returncode == 0 and long.read_bytes() == whole, ran)
        long.unlink()
    trial("nothing is left beside", not beside(room), beside(room))
    script.write_bytes(b"data 16\nlog 1048576\nclose\n")
    run("record", script, log)
    trial("zeroes at the end take no room", log.stat().st_size == 1 << 29 and log.stat().st_blocks < 1000, log.stat())
    script.write_bytes(b"data 131072\nlog 32\nw a 131000 1 41\nc a\nf b\nc b\nclose\n")
    first, out = room / "first", room / "out"
    first.write_bytes(bytes(1 << 26))
    run("record", script, log)
    run("replay", log, first, out, "entries:2")
    image = bytes(131000 * 512) + b"A" * 512 + bytes(71 * 512)
    trial("zeroes before a write take no room", out.read_bytes() == image and out.stat().st_blocks < 1000, out.stat())
    script.write_bytes(FIRST)


def memory(room):
    script, log = room / "script", pathlib.Path("/dev/shm/dmlw-outside-log")
    if not log.parent.is_dir():
        print("--   a file in memory: no /dev/shm")
        return
    script.write_bytes(FIRST)
    try:
        for older in (None, b"older and longer" * 4096):
            log.unlink(missing_ok=True)
            if older:
                log.write_bytes(older)
            ran = run("record", script, log)
            trial(f"a file in /dev/shm is {'replaced' if older else 'made'}", ran.returncode == 0 and log.stat().st_size == 16384, ran)
    finally:
        log.unlink(missing_ok=True)


def replays(room):
    script, log, first, out = (room / it for it in ("script", "log", "first", "out"))
    script.write_bytes(FIRST)
    run("record", script, log)
    whole = log.read_bytes()
    first.write_bytes(bytes(8192))
    ran = run("replay", log, first, out, "mark:dm-log-writes-end")
    left = bytes(2560) + b"A" * 512 + bytes(5120)
    trial("replay writes an image", (ran.returncode, ran.stdout, ran.stderr) == (0, b"replayed 3\n", b"") and out.read_bytes() == left, ran)
    ran = run("replay", log, first, out, "mark:none")
    trial("a refused replay leaves the older image", (ran.returncode, ran.stderr) == (1, b"dmlw: 25 NoSuchMark after 0 entries\n") and out.read_bytes() == left, ran)
    ran = run("replay", log, first, "/dev/stdout", "flush")
    trial("an image on standard output", ran.stdout == b"replayed 2\n" + left, ran.stderr)
    ran = run("replay", log, first, log, "flush")
    trial("a log isn't written over", (ran.returncode, ran.stderr) == (1, b"dmlw: 32 File\n") and log.read_bytes() == whole, ran)
    ran = run("replay", log, first, first, "flush")
    trial("an image may be replayed in place", ran.returncode == 0 and first.read_bytes() == left, ran)
    ran = run("replay", log, first, out, "entries:x")
    trial("a word that is none of the forms is a usage fault", ran.returncode == 2 and ran.stdout == b"" and ran.stderr != b"", ran)
    for moment, image, told, status in ((4, left, b"yes\n", 0), (4, bytes(8192), b"no sector 5 ruled out by event 0\n", 1), (2, bytes(8192), b"yes\n", 0)):
        out.write_bytes(image)
        ran = run("judge", script, moment, out)
        trial(f"judge at {moment} says {told.decode().strip()}", (ran.returncode, ran.stdout, ran.stderr) == (status, told, b""), ran)


def texts(room):
    page = (ROOT / "docs/FORMATS.md").read_bytes()
    ran = run("help", "formats")
    trial("help formats prints docs/FORMATS.md", (ran.returncode, ran.stdout, ran.stderr) == (0, page, b""))
    script = room / "script"
    script.write_bytes(FIRST)
    ran = run("--explain", "record", script, room / "none" / "log")
    trial("--explain has the system's reason", ran.returncode == 1 and b"dmlw: 32 File\n" in ran.stderr and b"No such file" in ran.stderr, ran)
    with open("/dev/full", "wb") as full:
        ran = subprocess.run([PROGRAM, "record", "--explain", script, room / "log"], stdout=full, stderr=subprocess.PIPE)
    trial("--explain names the output", ran.returncode == 1 and b"standard output" in ran.stderr, ran)
    exact = run("--explain", "list", room / "none").stderr
    for value, wanted in (("1", exact), ("0", b"dmlw: 32 File\n"), ("yes", b"dmlw: 32 File\n")):
        ran = run("list", room / "none", env=dict(os.environ, DMLW_EXPLAIN=value))
        trial(f"the program explains by itself only if DMLW_EXPLAIN is 1, and not {value}", (ran.returncode, ran.stderr) == (1, wanted), ran)


def pipes(room):
    script, log = room / "script", room / "log"
    script.write_bytes(FIRST)
    log.unlink(missing_ok=True)
    for command in (["record", script, log], ["list", log], ["status", log]):
        read, write = os.pipe()
        os.close(read)
        ran = subprocess.run([PROGRAM, *map(str, command)], stdout=write, stderr=subprocess.PIPE)
        os.close(write)
        trial(f"{command[0]} goes on where nobody reads", (ran.returncode, ran.stderr) == (0, b""), ran)
    trial("and its log is written", log.exists() and log.stat().st_size == 16384)
    with open("/dev/full", "wb") as full:
        for command in (["list", log], ["status", log]):
            ran = subprocess.run([PROGRAM, *map(str, command)], stdout=full, stderr=subprocess.PIPE)
            trial(f"{command[0]} on a full output is refused", (ran.returncode, ran.stderr) == (1, b"dmlw: 32 File\n"), ran)
    ran = run("record", script, "/dev/stdout")
    trial("a log on standard output", ran.returncode == 0 and ran.stdout == TOLD + log.read_bytes(), ran.stderr)
    for stream in ("/dev/stdout", "/dev/fd/1", "/proc/self/fd/1"):
        held = room / "stream"
        with open(held, "wb") as it:
            ran = subprocess.run([PROGRAM, "record", script, stream], stdout=it, stderr=subprocess.PIPE)
        trial(f"a log behind the output in one file, as {stream}", ran.returncode == 0 and held.read_bytes() == TOLD + log.read_bytes(), ran)
    fifo = room / "fifo"
    os.mkfifo(fifo)
    got = []
    reader = threading.Thread(target=lambda: got.append(fifo.read_bytes()))
    reader.start()
    ran = run("record", script, fifo)
    reader.join()
    trial("a log in a pipe", ran.returncode == 0 and got == [log.read_bytes()] and fifo.is_fifo(), ran)
    explained(room)


def explained(room):
    """What --explain says of what came through a pipe is what it says of a file of the same bytes, but for the name; of more than 4 MiB it says nothing false."""
    log = (room / "log").read_bytes()
    cases = (
        ("a script with no close", ["record", "IN", room / "out"], FIRST[:-6]),
        ("a bad word", ["record", "IN", room / "out"], FIRST.replace(b"41", b"4X")),
        ("an empty script", ["record", "IN", room / "out"], b""),
        ("a log that is none", ["list", "IN"], bytes(8192)),
        ("no whole sectors", ["status", "IN"], bytes(8000)),
        ("no such mark", ["replay", "IN", room / "script.img", room / "out", "mark:none"], log),
        ("no first image", ["replay", "IN", room / "none", room / "out", "flush"], log),
        ("a script of more than 4 MiB", ["record", "IN", room / "out"], b"#\n" * 2500000),
    )
    (room / "script.img").write_bytes(bytes(8192))
    for name, words, data in cases:
        (room / "in").write_bytes(data)
        ran = run("--explain", *["/dev/stdin" if it == "IN" else it for it in words], input=data, timeout=60)
        wanted = run("--explain", *[room / "in" if it == "IN" else it for it in words])
        said = ran.stderr.replace(b"/dev/stdin", str(room / "in").encode())
        if name == "a script of more than 4 MiB":
            # The system has no length of a pipe.
            said, exact = said.replace(b"has more than 4194304 bytes, the limit for a script", b"SIZE"), wanted.stderr.replace(b"has 5000000 bytes; a script has at most 4194304", b"SIZE")
        else:
            exact = wanted.stderr
        trial(f"in a pipe: {name}", (ran.returncode, ran.stdout, said) == (wanted.returncode, wanted.stdout, exact) and b"\n  " in b"\n" + said, (ran, wanted))
    for name, data, wanted in (
        ("a log that is none, of 8 MiB", bytes(1 << 23), b"dmlw: 13 BadMagic\n  /dev/stdin: it isn't a log\n"),
        ("an odd log of 8 MiB", bytes((1 << 23) + 1), b"dmlw: 32 File\n"),
        ("a log of 513 MiB", bytes(513 << 20), b"dmlw: 32 File\n  /dev/stdin has more than 536870912 bytes, the limit for a log or an image\n  the entries within the first 536870912 bytes of a log can be read: head -c 536870912 /dev/stdin >cut.log\n"),
    ):
        ran = subprocess.run([PROGRAM, "--explain", "list", "/dev/stdin"], input=data, capture_output=True)
        trial(f"in a pipe: {name}", (ran.returncode, ran.stdout, ran.stderr) == (1, b"", wanted), ran)
    fifo = room / "script-fifo"
    os.mkfifo(fifo)
    writer = threading.Thread(target=lambda: fifo.write_bytes(FIRST[:-6]))
    writer.start()
    ran = run("--explain", "record", fifo, room / "out", timeout=60)
    writer.join()
    trial("a pipe with a name isn't opened again", ran.returncode == 0 and b"has no line `close`" in ran.stderr, ran)


def full_disk(room):
    disk = room / "disk"
    disk.mkdir()
    if subprocess.run(["mount", "-t", "tmpfs", "-o", "size=64k", "tmpfs", str(disk)], capture_output=True).returncode:
        print("--   a full disk: no right to mount")
        return
    try:
        script, log = room / "large", disk / "log"
        script.write_bytes(b"data 2048\nlog 4096\nw a 0 2048 41\nc a\nclose\n")
        log.write_bytes(b"older")
        ran = run("record", script, log)
        trial("a full disk leaves the older log", ran.returncode == 1 and ran.stderr == b"dmlw: 32 File\n" and log.read_bytes() == b"older" and not beside(disk), ran)
    finally:
        subprocess.run(["umount", str(disk)])


def killed(room):
    script, log = room / "large", room / "log"
    script.write_bytes(b"data 2048\nlog 1048576\n" + b"".join(b"w a%d 0 2048 41\nc a%d\n" % (at, at) for at in range(200)) + b"close\n")
    log.write_bytes(b"older")
    torn = []
    for wait in range(1, 12):
        ran = subprocess.Popen([PROGRAM, "record", str(script), str(log)], stdout=subprocess.DEVNULL)
        try:
            ran.wait(wait * 0.03)
        except subprocess.TimeoutExpired:
            ran.kill()
            ran.wait()
        if log.stat().st_size not in (5, 1 << 29):
            torn.append((wait, log.stat().st_size))
    trial("a killed run leaves the older log or the whole one", not torn, torn)


def make_home(room):
    """A folder with the launcher, beside a program that it takes for current, and with the examples."""
    home = room / "home"
    shutil.copytree(ROOT / "examples", home / "examples")
    shutil.copy(ROOT / "dmlw", home)
    (home / "crates.txt").touch()
    (home / "crates/dmlw_program/out").mkdir(parents=True)
    (home / "crates/dmlw_program/out/dmlw_program").symlink_to(PROGRAM)
    (home / "crates/dmlw_program/out/dmlw_program.built").touch()
    return home


def terminal(room):
    at_terminal, end = pty.openpty()
    ran = subprocess.run([room / "home/dmlw", "list", room / "none"], stdout=subprocess.PIPE, stderr=end)
    os.close(end)
    told = os.read(at_terminal, 65536).replace(b"\r\n", b"\n")
    os.close(at_terminal)
    exact = run("--explain", "list", room / "none").stderr
    trial("at a terminal the launcher explains", (ran.returncode, ran.stdout, told) == (1, b"", exact) and exact.count(b"\n") > 1, (ran, told, exact))
    ran = subprocess.run([room / "home/dmlw", "list", room / "none"], capture_output=True)
    trial("and in a script it doesn't", (ran.returncode, ran.stdout, ran.stderr) == (1, b"", b"dmlw: 32 File\n"), ran)
    ran = subprocess.run([room / "home/dmlw", "list", room / "none"], capture_output=True, env=dict(os.environ, DMLW_EXPLAIN="1"))
    trial("unless DMLW_EXPLAIN is 1", (ran.returncode, ran.stdout, ran.stderr) == (1, b"", exact), ran)


def ship(home):
    """Gives a folder with the launcher a release/ of the program that is tried, and takes away what was built or unpacked there."""
    release.root = str(home)
    program = pathlib.Path(PROGRAM).read_bytes()
    for it in ("crates/dmlw_program/out", ".cache", "release"):
        shutil.rmtree(home / it, ignore_errors=True)
    (home / "release").mkdir()
    (home / release.PACKED).write_bytes(lzma.compress(program))
    (home / release.BUILT).write_text(f"sources {release.sum_of_sources()}\nprogram {hashlib.sha256(program).hexdigest()}\n")


def shipped(room):
    home, bare = room / "shipping", dict(os.environ, PATH="/usr/bin:/bin", HOME=str(room / "person"))
    for it in ("XDG_CACHE_HOME", "TMPDIR", "DMLW_EXPLAIN"):
        bare.pop(it, None)
    (home / "crates/refusals/src").mkdir(parents=True)
    shutil.copy(ROOT / "dmlw", home)
    (home / "crates.txt").write_text("words:\n")
    source = home / "crates/refusals/src/lib.rt"
    source.write_text("//! Words.\n")

    def launched(*words, **more):
        return subprocess.run([home / "dmlw", *words], capture_output=True, env=dict(bare, **more))

    if not shutil.which("xz", path=bare["PATH"]) or shutil.which("rt", path=bare["PATH"]):
        print("--   release/: no xz, or rt stands among the system's commands")
        return
    ship(home)
    version = run("--version").stdout
    for which in ("unpacks the shipped program", "and has it then"):
        ran = launched("--version")
        trial(f"the launcher {which}", (ran.returncode, ran.stdout, ran.stderr) == (0, version, b""), ran)
    which = launched("--which").stdout.decode().strip()
    trial("it names it", os.path.dirname(which) == str(home / ".cache"), which)

    # What keeps it from using release/ is named, with what helps.
    def unused(name, cause, **more):
        ran = launched("--version", **more)
        trial(name, ran.returncode == 1 and b"isn't used: " in ran.stderr and cause in ran.stderr and b"command rt isn't" in ran.stderr, ran)

    source.write_text("//! Other words.\n")
    unused("if a source differs it is not run", b"a file of crates/ isn't the one")
    ship(home)
    (home / release.PACKED).write_bytes(lzma.compress(b"another"))
    unused("nor if it is another than was built", b"isn't the program that release/BUILT names")
    ship(home)
    tools = room / "tools"
    tools.mkdir()
    for it in pathlib.Path("/usr/bin").iterdir():
        if it.name != "xz":
            (tools / it.name).symlink_to(it)
    unused("nor without xz, which it asks for", b"install xz-utils", PATH=str(tools))
    (tools / "uname").unlink()
    (tools / "uname").write_text("#!/bin/sh\necho Linux riscv64\n")
    (tools / "uname").chmod(0o755)
    unused("nor on another processor", b"a program for Linux x86_64, and this is Linux riscv64", PATH=str(tools))
    (home / ".cache").write_text("in the way")
    ran = launched("--which")
    trial("if the checkout can't be written it unpacks elsewhere", ran.stdout.decode().startswith(str(room / "person/.cache/dmlw/dmlw-")), ran)
    ran = launched("--which", XDG_CACHE_HOME=str(room / "cache"))
    trial("and that is used again", (ran.returncode, ran.stderr) == (0, b""), ran)
    shutil.rmtree(room / "person")
    ran = launched("--which", XDG_CACHE_HOME=str(room / "cache"))
    trial("in $XDG_CACHE_HOME", ran.stdout.decode().startswith(str(room / "cache/dmlw/dmlw-")), ran)
    shutil.rmtree(room / "cache")
    (room / "person").write_text("in the way")
    ran = launched("--which", TMPDIR=str(room))
    trial("or in $TMPDIR", ran.stdout.decode().startswith(f"{room}/dmlw-{os.getuid()}/dmlw-"), ran)
    (room / f"dmlw-{os.getuid()}").rename(room / "moved")
    (room / f"dmlw-{os.getuid()}").write_text("in the way")
    unused("and if no folder can be written it says so", b"none of these folders can be written", TMPDIR=str(room))


def each(room):
    log, first, each = room / "marks.log", room / "first", room / "home/examples/each.sh"
    run("record", ROOT / "examples/marks.script", log)
    first.write_bytes(bytes(8192))
    told = {0: "mark before the flush", 1: "write 4+1", 2: "write 8+2 flush fua", 3: "discard 4+1", 4: "mark dm-log-writes-end"}
    for which, numbers in (("marks", [0, 4]), ("flushes", [2]), ("fua", [2]), ("all", [0, 1, 2, 3, 4])):
        ran = subprocess.run([each, which, log, first, "sh", "-c", 'test -s "$1"', "sh"], capture_output=True, text=True)
        wanted = "".join(f"entry {it} ({told[it]}): passed\n" for it in numbers) + f"{len(numbers)} checked, 0 failed\n"
        trial(f"examples/each.sh {which} goes over its entries", (ran.returncode, ran.stdout, ran.stderr) == (0, wanted, ""), ran)
    # Only before the first write the image is the first one.
    check = ["sh", "-c", f'cmp -s "{first}" "$1" || {{ echo differs; exit 1; }}', "sh"]
    wanted = "entry 0 (mark before the flush): passed\nentry 1 (write 4+1): failed (status 1)\n  differs\n"
    ran = subprocess.run([each, "--stop", "all", log, first, *check], capture_output=True, text=True)
    trial("with --stop it ends at a failure", (ran.returncode, ran.stdout) == (1, wanted + "2 checked, 1 failed, the first is entry 1\n"), ran)
    ran = subprocess.run([each, "all", log, first, *check], capture_output=True, text=True)
    trial("and else it goes on", ran.returncode == 1 and ran.stdout.startswith(wanted) and ran.stdout.endswith("\n5 checked, 4 failed, the first is entry 1\n"), ran)
    wrong = {"no words": [], "no check": ["--stop", "marks", log, first], "another first word": ["every", log, first, "true"],
             "no log": ["all", room / "none", first, "true"], "no such check": ["all", log, first, "no-such"]}
    for name, words in wrong.items():
        ran = subprocess.run([each, *words], capture_output=True)
        trial(f"examples/each.sh with {name} doesn't begin", (ran.returncode, ran.stdout) == (2, b"") and ran.stderr != b"", ran)
    (room / "cut.log").write_bytes(log.read_bytes()[:3072])
    ran = subprocess.run([each, "all", room / "cut.log", first, "true"], capture_output=True, text=True)
    trial("of a log that is cut it tells the fault", ran.returncode == 1 and "21 CutShort" in ran.stderr and ran.stdout.startswith("entry 0 ("), ran)
    # A replay that fails is no file system that fails.
    (room / "small").write_bytes(bytes(2048))
    ran = subprocess.run([each, "all", log, room / "small", "true"], capture_output=True, text=True)
    wanted = "entry 0 (mark before the flush): passed\nentry 1 (write 4+1): not checked\n  dmlw: 27 PastTarget after 1 entries\n"
    trial("a first image that is too small ends it", ran.returncode == 3 and ran.stdout.startswith(wanted) and ran.stdout.endswith("\n1 checked, 0 failed\n"), ran)
    ran = subprocess.run(["sh", "-c", 'ulimit -f 12; exec "$@"', "sh", each, "all", log, first, "true"], capture_output=True, text=True)
    trial("so does a file that can't be written", ran.returncode == 3 and "entry 0 (mark before the flush): not checked\n  " in ran.stdout and ran.stdout.endswith("\n0 checked, 0 failed\n"), ran)
    ran = subprocess.run([each, "all", log, "/dev/null", "true"], capture_output=True, text=True)
    trial("and a first image that is none", ran.returncode == 3 and "not checked" in ran.stdout and "32 File" in ran.stdout, ran)
    ran = subprocess.run([each, "--from", "2", "all", log, first, "sh", "-c", 'echo "$DMLW_ENTRY/$DMLW_KIND/$DMLW_MARK"; false'], capture_output=True, text=True)
    wanted = "".join(f"entry {it} ({told[it]}): failed (status 1)\n  {it}/{told[it].split()[0]}/{told[it][5:] if it == 4 else ''}\n" for it in (2, 3, 4))
    trial("--from leaves out what is before, and a check knows its entry", (ran.returncode, ran.stdout) == (1, wanted + "3 checked, 3 failed, the first is entry 2\n"), ran)
    for start, count in (("mark:before the flush", 5), ("mark:dm-log-writes-end", 1), ("4", 1)):
        ran = subprocess.run([each, "--from", start, "all", log, first, "true"], capture_output=True, text=True)
        trial(f"--from {start} begins there", (ran.returncode, ran.stdout.split("\n")[-2]) == (0, f"{count} checked, 0 failed"), ran)
    for start in ("mark:none", "5", "x"):
        ran = subprocess.run([each, "--from", start, "all", log, first, "true"], capture_output=True, text=True)
        trial(f"--from {start} doesn't begin", (ran.returncode, ran.stdout) == (2, "") and ran.stderr != "", ran)
    (room / "each-link").symlink_to(each)
    ran = subprocess.run([room / "each-link", "marks", log, first, "true"], capture_output=True, text=True)
    trial("a link to it finds the program", (ran.returncode, ran.stderr) == (0, ""), ran)


def loop(room, *words, check=("true",), **how):
    """each.sh over the log of marks.script, which has five entries."""
    ran = subprocess.run([room / "home/examples/each.sh", *words, room / "marks.log", room / "first", *check], capture_output=True, text=True, timeout=120, **how)
    return ran.returncode, re.findall(r"^entry (\d+) .*: (.*)$", ran.stdout, re.M), ran.stdout.rstrip("\n").split("\n")[-1], ran


def each_of_some(room):
    for words, numbers in ((["--to", "1", "all"], "01"), (["--from", "1", "--to", "mark:dm-log-writes-end", "all"], "1234"), (["--to", "mark:before the flush", "all"], "0"),
                           (["--every", "2", "all"], "024"), (["--from", "1", "--every", "3", "all"], "14"), (["--from", "3", "--to", "3", "all"], "3")):
        status, states, last, ran = loop(room, *words)
        trial(f"each.sh {' '.join(words)}", (status, "".join(it for it, _ in states), last) == (0, numbers, f"{len(numbers)} checked, 0 failed"), ran)
    for words in (["--to", "5", "all"], ["--to", "mark:none", "all"], ["--from", "3", "--to", "1", "all"], ["--every", "0", "all"], ["-j", "x", "all"], ["-j", "2", "--bisect", "all"], ["--to"]):
        status, _, last, ran = loop(room, *words)
        trial(f"each.sh {' '.join(words)} doesn't begin", (status, last) == (2, "") and ran.stderr != "", ran)
    for ends, wanted in (("kill -SEGV $$", 139), ("exit 7", 7), ("exec timeout 0.2 sleep 9", 124)):
        status, states, last, ran = loop(room, "--from", "2", "--to", "2", "all", check=("sh", "-c", ends))
        trial(f"a check that ends by {ends}", (status, states, last) == (1, [("2", f"failed (status {wanted})")], "1 checked, 1 failed, the first is entry 2"), ran)


def each_at_once(room):
    states = {}
    for jobs in ("1", "2", "4", "7", "0"):
        sums = room / f"sums{jobs}"
        status, _, last, ran = loop(room, "-j", jobs, "all", check=("sh", "-c", f'echo "$DMLW_ENTRY $(cksum <"$1")" >>"{sums}"; sleep "0.0$((9 - DMLW_ENTRY * 2))"', "sh"))
        states[jobs] = (status, last, ran.stdout, sorted(sums.read_text().splitlines()))
    trial("each.sh -j gives the same output in the same order, and the same images", len(states["1"][3]) == 5 and all(it == states["1"] for it in states.values()), states)
    status, states, last, ran = loop(room, "-j", "3", "--stop", "all", check=("sh", "-c", "test $DMLW_ENTRY != 2"))
    trial("with --stop it ends at the first failure too", (status, len(states), last) == (1, 3, "3 checked, 1 failed, the first is entry 2"), ran)
    status, states, last, ran = loop(room, "-j", "3", "all", check=("sh", "-c", "test $DMLW_ENTRY != 3 || exit 3"))
    trial("and at a state that can't be checked", (status, states[3:], last) == (3, [("3", "not checked")], "3 checked, 0 failed"), ran)


def each_ended(room):
    """A loop that is interrupted, or whose reader goes away, ends its checks and leaves no folder."""
    left = room / "left"
    left.mkdir()
    for jobs in ("1", "2"):
        words = [room / "home/examples/each.sh", "-j", jobs, "all", room / "marks.log", room / "first"]
        for name, number, wanted in (("INT", signal.SIGINT, 130), ("TERM", signal.SIGTERM, 143), ("HUP", signal.SIGHUP, 129)):
            check = ["sh", "-c", '[ $DMLW_ENTRY != 0 ] || exit 5; [ $DMLW_ENTRY != 1 ] || exec sleep 33.25']
            it = subprocess.Popen([*words, *check], stdout=subprocess.PIPE, stderr=subprocess.PIPE, text=True, env=dict(os.environ, TMPDIR=str(left)), preexec_fn=lambda: signal.signal(signal.SIGINT, signal.SIG_DFL))
            first = it.stdout.readline()
            time.sleep(0.3)
            it.send_signal(number)
            try:
                out, _ = it.communicate(timeout=20)
            except subprocess.TimeoutExpired:
                it.kill()
                out = "no end"
            held = subprocess.run(["ps", "-eo", "args"], capture_output=True, text=True).stdout.count("sleep 33.25") if shutil.which("ps") else 0
            trial(f"a check that hangs in each.sh -j {jobs} ends at {name}", (it.returncode, first, out, held, list(left.iterdir())) == (wanted, "entry 0 (mark before the flush): failed (status 5)\n", "1 checked, 1 failed, the first is entry 0\n", 0, []), (it.returncode, first, out, held))
        ran = subprocess.run(["sh", "-c", '"$@" true | head -1', "sh", *words], capture_output=True, text=True, env=dict(os.environ, TMPDIR=str(left)))
        until = time.time() + 10
        while list(left.iterdir()) and time.time() < until:
            time.sleep(0.05)
        trial(f"each.sh -j {jobs} | head -1 leaves no folder", (ran.stdout, ran.stderr, list(left.iterdir())) == ("entry 0 (mark before the flush): passed\n", "", []), ran)


def bisected(room):
    for bad in range(6):
        status, states, last, ran = loop(room, "--bisect", "all", check=("sh", "-c", f"test $DMLW_ENTRY -lt {bad}"))
        ends = re.findall(r"^the (last good|first bad): entry (\d).*\n  \S+ replay \S+ \S+ (\S+) (\S+)$", ran.stdout, re.M)
        wanted = [("last good", str(bad - 1), "good.img", f"entries:{bad}")] * (0 < bad < 5) + [("first bad", str(bad), "bad.img", f"entries:{bad + 1}")] * (bad < 5)
        trial(f"--bisect finds the first bad entry, {bad} of 5", (status, ends) == (int(bad < 5), wanted) and len(states) <= 4 and "taken for granted" in ran.stdout, ran)


def kernel_log(entries):
    """A log of entries of one sector each: its flags and the sector."""
    made = [struct.pack("<QQQQ", sector, 0 if flags & 1 else 1, flags, 0).ljust(512, b"\0") + (b"" if flags & 1 else bytes([65 + number]) * 512) for number, (flags, sector) in enumerate(entries)]
    return struct.pack("<QQQI", 0x6A736677736872, 1, len(made), 512).ljust(512, b"\0") + b"".join(made)


def doubts(room):
    """The pairs of a FUA write and a plain write that may be older, by the flushes between them, and up to where they count."""
    log, plain, flush, fua = room / "doubts.log", 0, 1, 2
    cases = (
        ("none", [(fua, 3), (plain, 4), (flush, 0)], []),
        ("at once", [(fua, 3), (plain, 3), (flush, 0), (plain, 5)], [(0, 1, 0, 3, 3)]),
        ("behind a flush", [(fua, 3), (flush, 0), (plain, 3)], [(0, 2, 1, 3, 2)]),
        ("behind two", [(fua, 3), (flush, 0), (flush, 0), (plain, 3)], []),
        ("mended by a FUA write", [(fua, 3), (plain, 3), (plain, 9), (fua, 3)], [(0, 1, 0, 3, 2)]),
        ("mended by a later write", [(fua, 3), (plain, 3), (flush, 0), (flush, 0), (plain, 3)], [(0, 1, 0, 3, 3)]),
        ("before the FUA write", [(plain, 3), (fua, 3)], []),
    )
    for name, entries, wanted in cases:
        log.write_bytes(kernel_log(entries))
        ran = subprocess.run([room / "home/examples/doubts.sh", log], capture_output=True, text=True)
        found = [tuple(map(int, it)) for it in re.findall(r"^entries (\d+) \(.*?\) and (\d+) \(.*?\): (\d) flush(?:es)? between, sector (\d+), doubtful from \d+ to (\d+)$", ran.stdout, re.M)]
        trial(f"doubts.sh: {name}", (ran.returncode, ran.stderr, found) == (int(bool(wanted)), "", wanted), ran)
        for one, other, _, _, last in wanted:
            each = {number: subprocess.run([room / "home/examples/doubts.sh", log, str(number)], capture_output=True).returncode for number in range(len(entries))}
            trial("and in which prefixes", each == {number: int(other <= number <= last) for number in each}, each)
    for words, wanted in (([], 2), ([log, "x"], 2), ([log, "9"], 2), ([room / "none"], 2), ([room / "first"], 3)):
        ran = subprocess.run([room / "home/examples/doubts.sh", *words], capture_output=True)
        trial(f"doubts.sh with wrong words, {len(words)}", ran.returncode == wanted and ran.stderr != b"", ran)


def zsh(home):
    """What zsh makes of a line with a tab in it."""
    at, end = pty.openpty()
    env = dict(os.environ, PATH=f"{home}:{os.environ['PATH']}", TERM="dumb")
    it = subprocess.Popen(["zsh", "-f", "-i"], stdin=end, stdout=end, stderr=end, cwd=home, env=env, start_new_session=True)
    os.write(at, f"fpath=({ROOT}/packaging $fpath); autoload -Uz compinit; compinit -u -D; echo be''gun\n".encode())
    told, until = b"", time.time() + 30
    while b"begun" not in told and time.time() < until:
        told += os.read(at, 65536)
    os.write(at, b"dmlw replay a b c ent\tX")
    while b"X" not in told.split(b"begun")[-1] and time.time() < until:
        told += os.read(at, 65536)
    time.sleep(0.5)
    told += os.read(at, 65536) if b"entries" not in told else b""
    it.kill()
    it.wait()
    os.close(at)
    os.close(end)
    return told


def unpacked(room, name):
    file = room / name
    file.write_bytes(lzma.decompress((ROOT / f"examples/{name}.xz").read_bytes()))
    return file


def each_of_sample(room):
    """A log that the kernel recorded of an ext4: each state is the one that a replay from the first image gives, and its file system is whole from the end of mkfs on."""
    each, log, first = room / "home/examples/each.sh", unpacked(room, "ext4.log"), unpacked(room, "ext4.first")
    sums = room / "sums"
    began = time.time()
    ran = subprocess.run([each, "all", log, first, "sh", "-c", f'echo "$DMLW_ENTRY $(sha256sum <"$1")" >>"{sums}"', "sh"], capture_output=True, text=True)
    seconds = time.time() - began
    told = [it.split()[:2] for it in sums.read_text().splitlines()]
    trial(f"examples/each.sh goes over the {len(told)} entries of the sample, in {seconds:.1f} s", ran.returncode == 0 and len(told) == 288, ran)
    wrong, out = [], room / "ext4.out"
    for number, (said, sum_of_state) in enumerate(told):
        run("replay", log, first, out, f"entries:{number + 1}")
        if int(said) != number or hashlib.sha256(out.read_bytes()).hexdigest() != sum_of_state:
            wrong.append(number)
    trial("and each state is the one that a replay from the first image gives", not wrong, wrong)
    if not shutil.which("e2fsck"):
        print("--   the sample's file system: no e2fsck")
        return
    for which in ("marks", "flushes"):
        ran = subprocess.run([each, "--from", "mark:mkfs", which, log, first, ROOT / "examples/check-ext4.sh"], capture_output=True, text=True)
        trial(f"the sample's ext4 is whole at its {which}", ran.returncode == 0 and ran.stdout.endswith(" 0 failed\n"), ran)
    ran = subprocess.run([each, "--stop", "marks", log, first, ROOT / "examples/check-ext4.sh"], capture_output=True, text=True)
    trial("and so it is at the first mark", ran.returncode == 0, ran)
    check = ROOT / "examples/check-fsync-a.sh"
    ran = subprocess.run([each, "-j", "0", "--from", "mark:mkfs", "marks", log, first, check], capture_output=True, text=True)
    trial("at its mark fsync-a the file is there", ran.returncode == 0 and "(mark fsync-a): passed" in ran.stdout, ran)
    run("replay", log, first, out, "mark:mkfs")
    ran = subprocess.run([check, out], capture_output=True, text=True, env=dict(os.environ, DMLW_MARK="fsync-a"))
    trial("and a state without it doesn't pass", ran.returncode == 1 and "isn't as it was synced" in ran.stdout, ran)
    ran = subprocess.run([each, "--stop", "all", log, first, ROOT / "examples/check-ext4.sh"], capture_output=True, text=True)
    trial("but not before mkfs has ended", ran.returncode == 1 and "entry 0 (flush): failed (status " in ran.stdout, ran)


def commands():
    return re.findall(r"^  (\w+)  ", run("--help").stdout.decode().partition("Commands:\n")[2].partition("\n\n")[0], re.M)


def words_of(command):
    usage = re.search(rf"^Usage: \S+ {command}(.*)$", run(command, "--help").stdout.decode(), re.M)
    return re.findall(r"<(\w+)>", usage.group(1)) if usage else []


def completions(room):
    """The completions of bash, and of fish where it is installed, offer what the help lists, and nothing where no dmlw is in PATH."""
    home, shown = room / "completions", commands()
    home.mkdir()
    (home / "dmlw").symlink_to(PROGRAM)
    found, lost = (dict(os.environ, PATH=f"{it}{os.environ['PATH']}") for it in (f"{home}:", ""))
    script = 'source "$0"; compopt() { :; }; COMP_WORDS=("$@"); COMP_CWORD=$(($# - 1)); _dmlw; printf "%s\\n" "${COMPREPLY[@]}"'

    def offers(*words, env=found):
        return subprocess.run(["bash", "-c", script, ROOT / "packaging/dmlw.bash", "dmlw", *words, ""], capture_output=True, text=True, env=env, cwd=home).stdout.split()

    trial("bash completes the commands", shown and offers() == [*shown, "--explain", "--help", "--version"], offers())
    trial("and those of help", offers("--explain", "help") == [it if it != "help" else "formats" for it in shown], offers("help"))
    wanted = {"M": [], "SECTORS": [], "WHAT": ["entries:", "mark:", "flush"]}
    for command in shown:
        if command != "help":
            words = words_of(command)
            told = [offers(command, *words[:place]) for place in range(len(words) + 1)]
            trial(f"and the words of {command}", words and told == [*(wanted.get(it, ["dmlw"]) for it in words), []], told)
    if not shutil.which("dmlw", path=lost["PATH"]):
        trial("and nothing without the program", not offers(env=lost) and not offers("record", env=lost), (offers(env=lost), offers("record", env=lost)))
    if shutil.which("fish"):
        ask = f"source {ROOT}/packaging/dmlw.fish; complete -C 'dmlw '; complete -C 'dmlw replay a b c '"
        ran = subprocess.run(["fish", "--no-config", "-c", ask], capture_output=True, text=True, env=found, cwd=home)
        told = [it.partition("\t")[0] for it in ran.stdout.splitlines()]
        trial("fish completes the commands", sorted(told) == sorted([*shown, *wanted["WHAT"]]), ran)
    else:
        print("--   packaging/dmlw.fish: no fish")
    if shutil.which("zsh"):
        told = zsh(home)
        trial("zsh adds no space after entries:", b"entries:X" in told, told)
    else:
        print("--   packaging/_dmlw: no zsh")


def installed(room):
    home, root = room / "home", room / "root"
    for it in ("Makefile", "README.md", "CONTRIBUTING.md"):
        shutil.copy(ROOT / it, home)
    for it in ("packaging", "docs"):
        shutil.copytree(ROOT / it, home / it)
    if not shutil.which("make"):
        print("--   make install: no make")
        return
    where = [f"DESTDIR={root}", "PREFIX=/usr"]
    ran = subprocess.run(["make", "-s", "install", *where], cwd=home, capture_output=True)
    trial("make install installs", (ran.returncode, ran.stderr) == (0, b""), ran)
    ran = subprocess.run([root / "usr/bin/dmlw", "--version"], capture_output=True)
    trial("and what it installs runs", (ran.returncode, ran.stdout) == (0, run("--version").stdout), ran)
    for explains, wanted in (("1", run("--explain", "list", room / "none").stderr), ("0", b"dmlw: 32 File\n")):
        ran = subprocess.run([root / "usr/bin/dmlw", "list", room / "none"], capture_output=True, env=dict(os.environ, DMLW_EXPLAIN=explains))
        trial(f"with DMLW_EXPLAIN={explains} too", (ran.returncode, ran.stderr) == (1, wanted), ran)
    bare = dict(os.environ, PATH=f"{root}/usr/bin:{os.environ['PATH']}")
    ran = subprocess.run([root / "usr/share/dmlw/examples/each.sh", "all", room / "marks.log", room / "first", "true"], capture_output=True, text=True, env=bare)
    trial("so does its each.sh, by the PATH", (ran.returncode, ran.stderr) == (0, "") and ran.stdout.endswith("5 checked, 0 failed\n"), ran)
    words = [root / "usr/share/dmlw/examples/each.sh", "all", room / "marks.log", room / "first", "true"]
    ran = subprocess.run(words, capture_output=True, text=True)
    trial("and without the PATH", (ran.returncode, ran.stderr) == (0, "") and ran.stdout.endswith("5 checked, 0 failed\n"), ran)
    for word in ("--help", "help", "-h"):
        ran = subprocess.run([root / "usr/bin/dmlw", word], capture_output=True)
        trial(f"{word} of the installed program has no --rebuild", ran.returncode == 0 and b"--explain" in ran.stdout and b"--rebuild" not in ran.stdout, ran)
    ran = subprocess.run([root / "usr/bin/dmlw", "--rebuild"], capture_output=True)
    trial("which it refuses", (ran.returncode, ran.stdout) == (2, b"") and b"checkout" in ran.stderr, ran)
    named = set(re.findall(r"\b(?:docs/[\w/]+\.md|CONTRIBUTING\.md)", (ROOT / "README.md").read_text(encoding="utf-8")))
    lacking = [it for it in named if not (root / "usr/share/doc/dmlw" / it).is_file()]
    trial("the pages that README names are installed", named and not lacking, lacking)
    if shutil.which("dpkg-deb"):
        ran = subprocess.run([home / "packaging/deb.sh", room], capture_output=True, text=True)
        made = ran.stdout.strip()
        listed = subprocess.run(["dpkg-deb", "-c", made], capture_output=True, text=True).stdout
        trial("packaging/deb.sh makes a package", ran.returncode == 0 and all(it in listed for it in ("./usr/bin/dmlw\n", "./usr/lib/dmlw/dmlw\n", "man1/dmlw.1.gz\n")), (ran, listed))
    else:
        print("--   packaging/deb.sh: no dpkg-deb")
    ran = subprocess.run(["make", "-s", "uninstall", *where], cwd=home, capture_output=True)
    left = [str(it) for it in root.rglob("*") if it.is_file()]
    trial("make uninstall removes all of it", (ran.returncode, left) == (0, []), (ran, left))


# A file system's tools, the size of a small one, the words that make it, and where its superblock is. Of an ext4 without checksums nothing but the
# superblock tells of the damage, which a check is to find and not to mend.
SYSTEMS = {
    "ext4": (["mkfs.ext4", "e2fsck"], 16 << 20, ["-qF", "-O", "^metadata_csum"], 1024),
    "xfs": (["mkfs.xfs", "xfs_repair"], 300 << 20, ["-q"], 0),
    "btrfs": (["mkfs.btrfs", "btrfs"], 128 << 20, ["-q"], 65536),
}


def crashed(kind, image, room):
    """A copy of a file system as it is while it is mounted, or none where it can't be mounted here."""
    at, copy = room / "mounted", room / "crashed"
    at.mkdir(exist_ok=True)
    if subprocess.run(["mount", "-t", kind, "-o", "loop", image, at], capture_output=True).returncode:
        return None
    try:
        for number in range(20):
            (at / f"file{number}").write_bytes(b"x" * 3000)
        (at / "file3").rename(at / "moved")
        subprocess.run(["sync", "-f", at])
        subprocess.run(["cp", "--sparse=always", image, copy])
    finally:
        subprocess.run(["umount", at])
    return copy


def make_system(kind, image):
    """Makes a small file system in an image; false where its tools aren't here."""
    tools, size, words, _ = SYSTEMS[kind]
    missing = [it for it in tools if not shutil.which(it)]
    if missing:
        print(f"--   examples/check-{kind}.sh: no {missing[0]}")
        return False
    with open(image, "wb") as it:
        it.truncate(size)
    subprocess.run([tools[0], *words, image], capture_output=True, check=True)
    return True


def damage(kind, image):
    """Writes zeroes over an image's superblock."""
    with open(image, "r+b") as it:
        it.seek(SYSTEMS[kind][3])
        it.write(bytes(512))


def checks(room):
    for kind in SYSTEMS:
        image, check = room / kind, ROOT / f"examples/check-{kind}.sh"
        if not make_system(kind, image):
            continue
        ran = subprocess.run([check, image], capture_output=True)
        trial(f"{kind}: a whole image passes", ran.returncode == 0, ran)
        copy = crashed(kind, image, room)
        if copy:
            ran = subprocess.run([check, copy], capture_output=True)
            trial(f"{kind}: one that lost power passes", ran.returncode == 0, ran)
            copy.unlink()
        else:
            print(f"--   {kind} that lost power: no right to mount it, or no loop device")
        damage(kind, image)
        ran = subprocess.run([check, image], capture_output=True)
        trial(f"{kind}: one with a damaged superblock fails", ran.returncode != 0, ran)
        image.unlink()


def log_of(images):
    """A log that writes one image of a disk after another, each in pieces of 2,048 sectors, and then a mark."""
    entries, size = [], 2048 * 512
    for name, image in images.items():
        for at in range(0, len(image), size):
            entries.append(struct.pack("<QQQQ", at // 512, size // 512, 0, 0).ljust(512, b"\0") + image[at : at + size])
        entries.append((struct.pack("<QQQQ", 0, 0, 8, len(name)) + name.encode()).ljust(512, b"\0"))
    return struct.pack("<QQQI", 0x6A736677736872, 1, len(entries), 512).ljust(512, b"\0") + b"".join(entries)


def each_of_ext4(room):
    image, log = room / "ext4", room / "ext4.log"
    if not make_system("ext4", image):
        return
    images = {"whole": image.read_bytes()}
    copy = crashed("ext4", image, room)
    if copy:
        images["lost power"] = copy.read_bytes()
        copy.unlink()
    damage("ext4", image)
    images["damaged"] = image.read_bytes()
    log.write_bytes(log_of(images))
    image.write_bytes(bytes(len(images["whole"])))
    ran = subprocess.run([room / "home/examples/each.sh", "marks", log, image, ROOT / "examples/check-ext4.sh"], capture_output=True, text=True)
    told = [re.sub(r" \(status \d+\)$", "", it) for it in ran.stdout.split("\n") if it.startswith("entry ")]
    wanted = [f"entry {17 * at + 16} (mark {name}): {'failed' if name == 'damaged' else 'passed'}" for at, name in enumerate(images)]
    trial("examples/each.sh finds the entry that broke an ext4", ran.returncode == 1 and told == wanted, ran)


def loop_device(file):
    ran = subprocess.run(["losetup", "--find", "--show", file], capture_output=True, text=True) if shutil.which("losetup") else None
    return ran.stdout.strip() if ran and ran.returncode == 0 else None


def devices(room):
    script, kept, held = room / "script", room / "kept.log", {}
    script.write_bytes(FIRST)
    run("record", script, kept)
    contents = {"log": b"l" * 16384, "first": bytes(8192), "out": b"o" * 12288}
    try:
        for name, content in contents.items():
            (room / f"{name}.disk").write_bytes(content)
            held[name] = loop_device(room / f"{name}.disk")
            if not held[name]:
                print("--   block devices: no loop device, or no right to set one up")
                return
        on_devices(room, script, kept, held)
    finally:
        for it in held.values():
            if it:
                subprocess.run(["losetup", "--detach", it])


def on_devices(room, script, kept, held):
    log, first, out = (pathlib.Path(held[it]) for it in ("log", "first", "out"))
    ran = run("record", script, log)
    trial("a log is written to a device", (ran.returncode, ran.stdout) == (0, TOLD) and log.read_bytes() == kept.read_bytes() and log.is_block_device(), ran)
    for command in ("list", "status"):
        ran = run(command, log)
        trial(f"{command} reads a device", ran.returncode == 0 and ran.stdout == run(command, kept).stdout, ran)
    left = bytes(2560) + b"A" * 512 + bytes(5120)
    ran = run("replay", log, first, out, "flush")
    trial("replay reads devices, and writes the beginning of one", (ran.returncode, ran.stdout) == (0, b"replayed 2\n") and out.read_bytes() == left + b"o" * 4096, ran)
    ran = run("replay", log, out, first, "flush")
    trial("a device that is too small is refused", (ran.returncode, ran.stderr) == (1, b"dmlw: 32 File\n"), ran)
    ran = run("replay", log, first, log, "flush")
    trial("a log's device isn't written over", ran.returncode == 1 and log.read_bytes() == kept.read_bytes(), ran)
    ran = run("replay", log, out, out, "flush")
    trial("a device may be replayed in place", ran.returncode == 0 and out.read_bytes() == left + b"o" * 4096, ran)
    with open(room / "large.disk", "wb") as it:
        it.truncate((512 << 20) + 512)
    held["large"] = loop_device(room / "large.disk")
    ran = run("list", held["large"])
    trial("a device of more than 512 MiB is refused", (ran.returncode, ran.stdout, ran.stderr) == (1, b"", b"dmlw: 32 File\n"), ran)


def manual(room):
    made = room / "dmlw.1"
    made.write_bytes(subprocess.run([ROOT / "packaging/man.sh", PROGRAM], capture_output=True).stdout)
    page = made.read_text(encoding="utf-8")
    section = page.partition(".SH COMMANDS\n")[2].partition("\n.SH ")[0]
    stand = dict(re.findall(r'^\.TP\n\.BI "(\w+) " "([^"]*)"$', section, re.M))
    listed = commands()
    abouts = dict(re.findall(r"^  (\w+)  +(\S.*)$", run("--help").stdout.decode(), re.M))
    trial("the manual page has the program's commands, and no other", listed and sorted(stand) == sorted(listed), (listed, list(stand)))
    for command in listed:
        words = words_of(command)
        if command != "help":
            about = run(command, "--help").stdout.decode().split("\n")[0]
            trial(f"help lists what {command} does", abouts.get(command) == about, (abouts.get(command), about))
            trial(f"the manual page has the words of {command}", words and stand.get(command) == " ".join(words), (words, stand.get(command)))
    for show in (["man", "--warnings", "-l"], ["groff", "-man", "-Tutf8", "-ww"]):
        if shutil.which(show[0]):
            ran = subprocess.run([*show, made], capture_output=True)
            trial(f"{show[0]} shows the manual page without a warning", (ran.returncode, ran.stderr) == (0, b"") and b"dm-log-writes" in ran.stdout, ran)
        else:
            print(f"--   the manual page: no {show[0]}")


with tempfile.TemporaryDirectory() as at:
    make_home(pathlib.Path(at))
    for part in (files, memory, replays, texts, terminal, shipped, each, each_of_some, each_at_once, each_ended, bisected, each_of_sample, doubts, completions, installed, checks, each_of_ext4, devices, manual, pipes, full_disk, killed):
        try:
            part(pathlib.Path(at))
        except (OSError, LookupError, ValueError, subprocess.SubprocessError) as error:  # what the program left can't be read
            trial(f"{part.__name__} goes to its end", False, repr(error))
print(f"{len(passed)} passed, {len(failed)} failed")
sys.exit(1 if failed else 0)
