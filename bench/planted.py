#!/usr/bin/env python3
"""planted: tries wrong bodies that the gate doesn't try.

  bench/planted.py [CRATE | CRATE/NAME]..
        In a copy of the repository, adds the bugs of crates/CRATE/planted.txt that have a text to the edits of must-fail/, and runs `rt must-fail` over these crates: all
        that have such a file, if none is named. CRATE/NAME tries that bug only, of either place; its name has - for each space. The copy begins with what checks in this
        checkout kept, so check the crates first. Status 0: each was refused.

planted.txt has an entry for each bug: its name after `## `, what refused it after `refused: `, and either its edit's place, or the lines of an edit (`file: `, `old: `, `new: `),
or nothing more if its text is gone.
"""
import os, shutil, subprocess, sys, tempfile

root = os.path.dirname(os.path.dirname(os.path.abspath(__file__)))


def entries_of(crate):
    """The bugs of a crate: each with its name, what refused it, and the lines of its edit."""
    path = f"{root}/crates/{crate}/planted.txt"
    if not os.path.exists(path):
        return
    with open(path, encoding="utf-8") as it:
        for part in it.read().split("\n## ")[1:]:
            name, *lines = part.rstrip("\n").split("\n")
            refused = next((line[9:] for line in lines if line.startswith("refused: ")), "")
            edit = [line for line in lines if line.startswith(("file: ", "old: ", "new:"))]
            yield name, refused, edit


def slug_of(name):
    """The name by which a bug is asked for, which its edit has as its file's."""
    return name.replace("`", "").split(" (")[0].lower().replace(" ", "-")


def main():
    wanted = {tuple(word.split("/")) for word in sys.argv[1:] if "/" in word}
    named = [word for word in sys.argv[1:] if "/" not in word] or sorted({crate for crate, _ in wanted})
    named = named or sorted(it for it in os.listdir(f"{root}/crates") if os.path.exists(f"{root}/crates/{it}/planted.txt"))
    with tempfile.TemporaryDirectory(prefix="planted-") as room:
        copy = f"{room}/r"
        shutil.copytree(root, copy, ignore=shutil.ignore_patterns("out", ".git"), symlinks=True)
        for crate in named:
            folder = f"{copy}/crates/{crate}/must-fail"
            os.makedirs(folder, exist_ok=True)
            for name, _, edit in entries_of(crate):
                if edit:
                    with open(f"{folder}/{slug_of(name)}.edit", "w", encoding="utf-8") as it:
                        it.write("\n".join(edit) + "\n")
            if wanted:
                for file in os.listdir(folder):
                    if (crate, file[: -len(".edit")]) not in wanted:
                        os.remove(f"{folder}/{file}")
        return subprocess.run(["rt", "must-fail", *named], cwd=copy).returncode


if __name__ == "__main__":
    raise SystemExit(main())
