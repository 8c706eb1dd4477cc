#!/usr/bin/env python3
"""hostile: the built program on images that no recorder writes, under limits of memory and of time.

  bench/hostile.py [IMAGES [FIRST [PROGRAM]]]    so many images (default 100,000) from the seed FIRST (default 1) on; PROGRAM, else the one that ./dmlw runs

An image has 512 to 65,536 bytes and log sectors of any size: a log that was cut and in which bytes and fields were set to others, or fields of the largest
numbers, or any bytes behind a log's first ones. Each is listed, and asked for its status, replayed or copied. The program has 8 MiB of addresses beyond what
`--help` takes, and 5 seconds of a processor. What it tells and what it leaves are compared with the model of bench/force.py, where want of memory is a
difference too. Prints what differs, and ends with status 1 then.
"""
import collections, os, random, struct, subprocess, sys, tempfile, time
from multiprocessing import Pool

import force
from measure import processors, program_of

SIZES = (512, 1024, 2048, 4096)
MOST = 65_536
BEYOND = 8192  # KiB of addresses beyond what `--help` takes
SECONDS = 5
BATCH = 250
NUMBERS = [0, 1, 2, 3, 7, 8, 31, 32, 33, 255, 256, 2047, 2048, 2049, 65535, (1 << 32) - 1, 1 << 32, (1 << 51) - 1, 1 << 51, (1 << 54) - 1, 1 << 54, (1 << 63) - 1, 1 << 63, (1 << 64) - 2, (1 << 64) - 1]


def log_of(dice):
    """A log that a recorder might have written, in sectors of any size, and room behind it."""
    size = dice.choice((512, 512, 512, 1024, 2048, 4096))
    sectors = dice.randint(2, MOST // size)
    image, at, count = bytearray(size * sectors), 1, 0
    for _ in range(dice.randrange(40)):
        flags, number, text = dice.choice((0, 1, 2, 3, 4, 8, 16, 19)), dice.choice((0, 1, 1, 2, 5)), b""
        if flags & 8:
            number, text = 0, bytes(dice.randrange(256) for _ in range(dice.choice((0, 1, 9, 40, size - 33, size - 32))))
        data = number if not flags & 12 else 0
        if at + 1 + data > sectors:
            break
        struct.pack_into("<QQQQ", image, at * size, dice.randrange(64), number, flags, len(text))
        image[at * size + 32 : at * size + 32 + len(text)] = text
        image[(at + 1) * size : (at + 1 + data) * size] = bytes([dice.randrange(256)]) * (data * size)
        at, count = at + 1 + data, count + 1
    struct.pack_into("<QQQI", image, 0, 0x6A736677736872, 1, count, size)
    return image


def hostile_of(seed):
    dice = random.Random(seed)
    image = log_of(dice)
    kind = dice.random()
    if kind < 0.1:
        image[32:] = dice.randbytes(len(image) - 32)
    if kind < 0.02:
        image[:] = dice.randbytes(len(image))
    size = struct.unpack_from("<I", image, 24)[0]
    for _ in range(dice.choice((0, 1, 1, 1, 2, 3, 8))):
        what = dice.random()
        if what < 0.3:
            image[dice.randrange(min(len(image), dice.choice((32, 1024, MOST))))] = dice.randrange(256)
        elif what < 0.45:
            struct.pack_into("<Q", image, dice.choice((0, 8, 16, 16, 16, 24)), dice.choice(NUMBERS))
        elif size in SIZES and len(image) > size:
            at = size * dice.randint(1, min(12, len(image) // size - 1))
            struct.pack_into("<Q", image, at + 8 * dice.randrange(4), dice.choice(NUMBERS))
    if dice.random() < 0.25:
        del image[force.SECTOR * dice.randint(1, len(image) // force.SECTOR) :]
    return bytes(image), dice


def status_of(image):
    entries, code = force.read_log(image)
    if code is not None:
        return "", f"dmlw: {code} {force.NAMES[code]}\n", 1
    size = force.size_of(image)
    ends = [it[0] + 1 + len(it[4]) // size * (not it[3] & force.MARK) for it in entries]
    return f"{len(entries)} {ends[-1] * (size // force.SECTOR) - 1 if ends else 0}\n", "", 0


def command_of(image, dice):
    """A command over an image beside `list`: its words, what it tells, and what it leaves in `out`, if anything."""
    what = dice.randrange(4)
    if what == 0:
        return "status", status_of(image), None
    if what == 1:
        sectors = dice.choice((8, 17, 64, 200))
        out, err, left = force.copied(image, sectors)
        return f"copy OUT {sectors}", (out, err, int(left is None)), left
    count = struct.unpack_from("<Q", image, 16)[0]
    upto = dice.choice((f"entries:{min(count, 64)}", f"entries:{count}", f"entries:{dice.randrange(9)}", "mark:a", "mark:", "flush"))
    first = bytes([dice.randrange(256)]) * (force.SECTOR * dice.choice((1, 16, 100)))
    out, err, left = force.replayed(image, first, upto)
    return f"replay FIRST OUT {upto}", (out, err, int(left is None)), (first, left)


class Batch:
    """Images and the lines of a shell that run the program over them, so that one shell's limits hold for all."""

    def __init__(self, program, limit, folder):
        self.program, self.limit, self.folder = program, limit, folder
        self.lines, self.wanted, self.counts, self.differences = [], [], collections.Counter(), []

    def path(self, name):
        return f"{self.folder}/{name}"

    def write(self, name, data):
        with open(self.path(name), "wb") as it:
            it.write(data)

    def read(self, name):
        try:
            with open(self.path(name), "rb") as it:
                return it.read()
        except FileNotFoundError:
            return None

    def add(self, seed):
        image, dice = hostile_of(seed)
        self.write(f"i{seed}", image)
        self.ask(seed, "list", f"list i{seed}", force.listed(image), None)
        words, told, left = command_of(image, dice)
        if isinstance(left, tuple):
            self.write(f"f{seed}", left[0])
            left = left[1]
        verb, _, rest = words.partition(" ")
        self.ask(seed, verb, f"{verb} i{seed} {rest}".strip().replace("FIRST", f"f{seed}").replace("OUT", f"o{seed}"), told, left)

    def ask(self, seed, verb, words, told, left):
        place = len(self.wanted)
        self.lines.append(f"{self.program} {words} >a{place} 2>e{place}; echo $? >s{place}")
        self.wanted.append((seed, verb, words, told, left))

    def run(self):
        script = f"ulimit -v {self.limit}; ulimit -t {SECONDS}; ulimit -c 0\n" + "\n".join(self.lines)
        try:
            subprocess.run(["sh"], input=script.encode(), cwd=self.folder, stderr=subprocess.DEVNULL, timeout=SECONDS * 60)
        except subprocess.TimeoutExpired:
            self.differences.append(f"no end of the images from seed {self.wanted[0][0]} on")
        for place, (seed, verb, words, told, left) in enumerate(self.wanted):
            got = ((self.read(f"a{place}") or b"").decode(errors="replace"), (self.read(f"e{place}") or b"").decode(errors="replace"), int(self.read(f"s{place}") or b"-1"))
            written = self.read(f"o{seed}") if verb in ("copy", "replay") else None
            self.counts[f"{verb} {'refused' if told[2] else 'done'}"] += 1
            if got != told or written != left:
                self.differences.append(f"seed {seed}: {words}: got {got!r}, wanted {told!r}, left {written == left}")


def tried(job):
    program, limit, seeds = job
    with tempfile.TemporaryDirectory(dir=force.MEMORY) as folder:
        batch = Batch(program, limit, folder)
        for seed in seeds:
            batch.add(seed)
        batch.run()
    return batch.counts, batch.differences


def least_addresses(program):
    """How many KiB of addresses `--help` takes, to a quarter of a MiB."""
    for limit in range(1024, 1 << 20, 256):
        done = subprocess.run(["sh", "-c", f"ulimit -v {limit}; exec {program} --help"], capture_output=True)
        if done.returncode == 0:
            return limit
    raise SystemExit(f"{program} --help fails")


def main():
    words = sys.argv[1:]
    if len(words) > 3 or not all(it.isdigit() for it in words[:2]):
        print(__doc__.strip(), file=sys.stderr)
        return 2
    count, first = (list(map(int, words[:2])) + [100_000, 1][len(words[:2]) :])[:2]
    program = program_of(words[2:])
    limit = least_addresses(program) + BEYOND
    jobs = [(program, limit, range(at, min(at + BATCH, first + count))) for at in range(first, first + count, BATCH)]
    counts, found, begin = collections.Counter(), [], time.time()
    with Pool(processors()) as pool:
        for some, differences in pool.imap_unordered(tried, jobs):
            counts += some
            found += differences
    print("".join(f"{it[:1000]}\n" for it in found[:20]), end="")
    print(f"{count:,} images from the seed {first} on, {limit:,} KiB of addresses, {time.time() - begin:,.0f} seconds, {len(found)} differences")
    print(", ".join(f"{name} {number:,}" for name, number in sorted(counts.items())))
    return int(bool(found))


if __name__ == "__main__":
    sys.exit(main())
