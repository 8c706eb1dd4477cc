#!/usr/bin/env python3
"""only: checks single functions of a crate, over libraries that are proved already.

  bench/only.py [--from CLONE] [--test] CRATE PATH..
        Checks the functions that PATH names, such as `seat_run::start` or `one::exchanged`, and those that they call; --test says that they are tests. --from takes the
        libraries that lie built in CLONE, such as a copy in which `rt ci` works, for each crate whose sources and whose lower crates' sources are the same there.

It gives no verdict that counts. It needs the kit's `rt` on the PATH. What it proved is kept in the temporary folder, so that a second run checks what changed alone.
"""
import argparse, os, shutil, subprocess, tempfile

import where
from gate_costs import load_rt


def stamps(rt, root):
    """Returns the sum of each crate's sources and those below it."""
    os.chdir(root)
    rt.rtlib.Crate = rt.Crate
    rt.Crate.cuts_libraries = True
    rt.Crate.allowed = rt.handles_of(root)
    return {it.name: it.stamp() for it in rt.rtlib.crates_below(root)}


def take(clone):
    """Copies the libraries of the clone, and says in each of what it was made, so that `rt` takes it for its own."""
    rt = load_rt()
    theirs, ours = stamps(rt, clone), stamps(rt, where.root)
    for name, stamp in ours.items():
        source, target = f"{clone}/crates/{name}/out/rlib", f"{where.root}/crates/{name}/out/rlib"
        if theirs.get(name) != stamp or not os.path.isdir(source) or not os.listdir(source):
            continue
        shutil.rmtree(target, ignore_errors=True)
        shutil.copytree(source, target)
        with open(f"{target}/stamp", "w") as it:
            it.write(stamp)
        print(f"only: {name} is taken")


def main():
    asks = argparse.ArgumentParser(description=__doc__, formatter_class=argparse.RawDescriptionHelpFormatter)
    asks.add_argument("--from", dest="clone")
    asks.add_argument("--test", action="store_true")
    asks.add_argument("crate")
    asks.add_argument("path", nargs="+")
    options = asks.parse_args()
    if options.clone:
        take(os.path.realpath(options.clone))
    rattle, folder, words = where.words_of(options.crate, options.test)
    kept = f"{tempfile.gettempdir()}/only-{options.crate}{'-tests' if options.test else ''}"
    os.makedirs(kept, exist_ok=True)
    only = [word for path in options.path for word in ("--only", path)]
    return subprocess.run([rattle, "check", *words, *only, "--incremental", kept], cwd=folder).returncode


if __name__ == "__main__":
    raise SystemExit(main())
