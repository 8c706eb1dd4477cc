#!/usr/bin/env python3
"""examples: runs the commands that README.md, docs/USING.md and docs/FORMATS.md show, as they are there, and compares what they print with what the pages say.

  examples.py [PROGRAM]      PROGRAM: the built program, else the one that ./dmlw runs

A command is a word list in backticks, or a line of an indented block, that begins with a word of IS_COMMAND. What it prints comes after the word `prints`, and what it prints
on standard error after `reports`: in the next indented block, or in backticks, a line each. The commands of a page run one after another in one folder. The user's own log,
`my.log`, is the sample's with a mark `synced` in it, and `before.img` is the sample's device. Left out is what needs devices, a client or all proofs, and what needs a program
that isn't installed, which a line that begins with `--` says. Ends with status 1 if a text differs, or if a command without one ends as wrong words or as a file that can't be read.
Needs nothing but Python 3, and for some commands xz or e2fsprogs.
"""
import lzma, os, pathlib, re, shutil, subprocess, sys, tempfile

from measure import program_of

ROOT = pathlib.Path(__file__).resolve().parent.parent
PROGRAM = program_of(sys.argv[1:2])
PAGES = ("README.md", "docs/USING.md", "docs/FORMATS.md")
IS_COMMAND = re.compile(r"^(\./dmlw|truncate|printf|awk|xz|od|examples/\S+\.sh) \S|^(cmp|e2fsck|debugfs) .*\.img\b")
# What needs devices, a client or all proofs, or has words in capitals that a reader replaces.
NOT_HERE = re.compile(r"\.ci/run|/dev/|serve\.sh|\b(?:CHECK|LOG|SCRIPT|IMAGE|FIRST|ENTRY)\b|--rebuild|--which| \.\.$")
# The program that a command needs beside the shell's usual ones.
NEEDS = {"e2fsck": re.compile(r"check-ext4|check-fsync-a|^e2fsck"), "debugfs": re.compile(r"check-fsync-a|^debugfs"), "xz": re.compile(r"^xz"), "xfs_db": re.compile(r"^xfs_db")}
PATH = os.environ["PATH"] + ":/usr/sbin:/sbin"


def paragraphs(text):
    """The page's paragraphs: each with whether it is an indented block."""
    for block in re.split(r"\n\s*\n", text):
        lines = [it for it in block.split("\n") if it.strip()]
        if lines and all(it.startswith("    ") for it in lines):
            yield True, "\n".join(it[4:] for it in lines)
        elif lines:
            yield False, " ".join(it.strip() for it in lines)


def commands_of(text):
    """Each command of a page, with the text that it is said to print, if one is said. A text that it reports on standard error begins with `dmlw: `."""
    waiting = None
    for is_block, block in paragraphs(text):
        if is_block:
            lines = block.split("\n")
            if waiting is not None and not IS_COMMAND.match(lines[0]):
                yield waiting, block + "\n"
                waiting = None
                continue
            if waiting is not None:
                yield waiting, None
                waiting = None
            listed = [it for it in lines if IS_COMMAND.match(it)]
            for at, line in enumerate(listed):
                command, _, said = line.partition("  ")
                told = re.search(r"# prints `([^`]*)`", said)
                if told:
                    yield command.strip(), told.group(1) + "\n"
                elif at + 1 == len(listed):
                    waiting = command.strip()
                else:
                    yield command.strip(), None
            continue
        found = list(re.finditer(r"`([^`]+)`", block))
        if waiting is not None:
            # (the text goes on behind a block of commands)
            told = re.match(r"(?:It )?(?:prints|reports) ((?:`[^`]*`(?:, | and |: )?)+)", block)
            if told:
                yield waiting, "\n".join(re.findall(r"`([^`]*)`", told.group(1))) + "\n"
                waiting = None
            elif not re.search(r"\b(?:prints|reports)$|\bprints [\w, ]+:$", block):
                yield waiting, None
                waiting = None
        for it in found:
            if not IS_COMMAND.match(it.group(1)):
                continue
            if waiting is not None:
                yield waiting, None
                waiting = None
            behind = block[it.end():]
            told = re.match(r",? (?:which )?(?:prints|reports) ((?:`[^`]*`(?:, | and )?)+)", behind)
            if told:
                yield it.group(1), "\n".join(re.findall(r"`([^`]*)`", told.group(1))) + "\n"
            elif re.match(r",? (?:which )?(?:prints|reports)$", behind) or re.match(r" then$| prints (?:the|its) [\w, ]+:$", behind):
                waiting = it.group(1)
            else:
                yield it.group(1), None
    if waiting is not None:
        yield waiting, None


def same(one, other):
    """Whether two texts are the same, but for tabs, which a page has as spaces."""
    return one == other or one.replace("\t", " ") == other


def files_of(room):
    """A log of the reader's own, and the device before it: those of the sample, with a mark `synced`."""
    log, first = (lzma.decompress((ROOT / f"examples/ext4.{it}.xz").read_bytes()) for it in ("log", "first"))
    pathlib.Path(room, "my.log").write_bytes(log.replace(b"sync-d", b"synced", 1))
    pathlib.Path(room, "before.img").write_bytes(first)


def main():
    failed = tried = compared = 0
    missing = {name: 0 for name in NEEDS if not shutil.which(name, path=PATH)}
    for page in PAGES:
        with tempfile.TemporaryDirectory() as room:
            shutil.copytree(ROOT / "examples", f"{room}/examples")
            os.symlink(PROGRAM, f"{room}/dmlw")
            files_of(room)
            for command, wanted in commands_of((ROOT / page).read_text(encoding="utf-8")):
                lacks = [name for name in missing if NEEDS[name].search(command)]
                if lacks:
                    missing[lacks[0]] += 1
                if NOT_HERE.search(command) or lacks:
                    continue
                ran = subprocess.run(command, shell=True, cwd=room, env=dict(os.environ, DMLW="./dmlw", PATH=PATH), capture_output=True, text=True)
                told = ran.stderr if (wanted or "").startswith("dmlw: ") else ran.stdout
                tried += 1
                compared += wanted is not None
                if (wanted is not None and not same(told, wanted)) or (wanted is None and ran.returncode not in (0, 1, 3)) or ran.stderr.startswith("dmlw: 32"):
                    failed += 1
                    print(f"{page}: {command}\n  prints {ran.stdout!r} {ran.stderr!r}, status {ran.returncode}\n  said   {wanted!r}")
    for name, count in missing.items():
        print(f"--   {count} commands of the pages: no {name}")
    print(f"{tried} commands, {compared} with what they print, {failed} differ")
    return 1 if failed or not compared else 0


if __name__ == "__main__":
    sys.exit(main())
