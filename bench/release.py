#!/usr/bin/env python3
"""release: makes release/ anew, from a program that the gate has built.

  bench/release.py PROGRAM 'LAST LINE OF THE GATE'
        Writes release/dmlw-x86_64-linux.xz, the program packed, and release/BUILT, which says of what it is: a line each of the sum of the sources, as the
        launcher makes it, the program's sha256, the toolchain's version, the gate's last line, and the commit that the gate was run on. The working tree has
        to be that commit's.
  bench/release.py --check
        Says where release/ is there and isn't of the tree at hand; ends with status 1 then.

The same program gives the same bytes. It needs the kit's `rt` on the PATH and nothing but Python 3.
"""
import hashlib, lzma, os, subprocess, sys

root = os.path.dirname(os.path.dirname(os.path.abspath(__file__)))
PACKED, BUILT = "release/dmlw-x86_64-linux.xz", "release/BUILT"


def bytes_of(name):
    with open(f"{root}/{name}", "rb") as it:
        return it.read()


def sources():
    yield "crates.txt"
    for folder, folders, names in os.walk(f"{root}/crates"):
        if "out" in folders:
            folders.remove("out")
        for name in names:
            if name.endswith((".rt", ".antt")) or name == "crates.txt":
                yield os.path.relpath(f"{folder}/{name}", root)


def sum_of_sources():
    """The sum that the launcher makes: of a list of each source's own sum and name, in the order of their names' bytes."""
    names = sorted(sources(), key=os.fsencode)
    lines = "".join(f"{hashlib.sha256(bytes_of(name)).hexdigest()}  {name}\n" for name in names)
    return hashlib.sha256(lines.encode()).hexdigest()


def said(*words):
    return subprocess.run(words, cwd=root, stdout=subprocess.PIPE, text=True, check=True).stdout.strip()


def program_in(packed):
    """The sha256 of the program that is packed, or none where more or less than one is."""
    unpacker = lzma.LZMADecompressor(format=lzma.FORMAT_XZ)
    try:
        program = unpacker.decompress(packed)
    except lzma.LZMAError:
        return None
    return hashlib.sha256(program).hexdigest() if unpacker.eof and not unpacker.unused_data else None


def off():
    """What of release/ isn't of the tree at hand; nothing where there is none."""
    if not os.path.exists(f"{root}/release"):
        return
    try:
        packed, built = bytes_of(PACKED), bytes_of(BUILT).decode()
    except OSError as error:
        yield f"release/: {error.strerror}: {os.path.relpath(error.filename, root)}"
        return
    stands = dict(line.split(" ", 1) for line in built.splitlines() if " " in line)
    if stands.get("sources") != sum_of_sources():
        yield f"{BUILT}: the sources are others by now"
    # The kits of one logic build the same program: what counts is the logic's sum, the last word.
    if stands.get("toolchain", "").split()[-1:] != said("rt", "version").split()[-1:]:
        yield f"{BUILT}: the toolchain is another"
    if stands.get("program") != program_in(packed):
        yield f"{PACKED}: it isn't the program that BUILT names"


def make(program, last_line):
    if said("git", "status", "--porcelain", "--", "crates", "crates.txt"):
        return "the sources aren't those of a commit"
    with open(program, "rb") as it:
        bytes_ = it.read()
    if not bytes_.startswith(b"\x7fELF"):
        return f"{program} is no program"
    lines = {"sources": sum_of_sources(), "program": hashlib.sha256(bytes_).hexdigest(), "toolchain": said("rt", "version"),
             "gate": last_line.strip(), "commit": said("git", "rev-parse", "HEAD")}
    os.makedirs(f"{root}/release", exist_ok=True)
    with open(f"{root}/{PACKED}", "wb") as it:
        it.write(lzma.compress(bytes_, preset=9 | lzma.PRESET_EXTREME))
    with open(f"{root}/{BUILT}", "w", encoding="utf-8") as it:
        it.write("".join(f"{word} {value}\n" for word, value in lines.items()))
    print(f"{PACKED}: {os.path.getsize(f'{root}/{PACKED}')} bytes; {BUILT}:")
    print("".join(f"  {word} {value}\n" for word, value in lines.items()), end="")


def main():
    if sys.argv[1:] == ["--check"]:
        found = list(off())
        print("\n".join(found) or "release/ is of this tree, or isn't there")
        return 1 if found else 0
    if len(sys.argv) != 3 or sys.argv[1].startswith("-"):
        print(__doc__.strip(), file=sys.stderr)
        return 2
    fault = make(sys.argv[1], sys.argv[2])
    if fault:
        print(f"release: {fault}", file=sys.stderr)
    return 1 if fault else 0


if __name__ == "__main__":
    sys.exit(main())
