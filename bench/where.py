#!/usr/bin/env python3
"""where: what the check of a crate takes its time for.

  bench/where.py CRATE [--test] [--most N] [--keep DIR]
        Checks a crate, with its tests where --test says so, from nothing and by one job, over the libraries that lie built in crates/*/out (`rt lib` or `rt ci` builds
        them), and prints the N parts (30 if left out) that took longest, in seconds, and the sum of each kind of part: `Lts` is the lifetimes of a function, `Tie` its code
        and its types, `Proof` its goals. --keep says where the check leaves what it proved; a second run over that checks what changed alone.

It gives no verdict that counts. Times are those between one saved file and the next, so they hold where the machine does little else. It needs the kit's `rt` on the PATH.
"""
import argparse, os, re, subprocess, tempfile, time

from gate_costs import load_rt

root = os.path.dirname(os.path.dirname(os.path.abspath(__file__)))


def words_of(name, tests):
    rt = load_rt()
    os.chdir(root)
    rt.rtlib.Crate = rt.Crate
    rt.Crate.cuts_libraries = True
    rt.Crate.allowed = rt.handles_of(root)
    crate = next(it for it in rt.rtlib.crates_below(root) if it.name == name)
    return rt.rtlib.RATTLE, crate.folder, crate.words(["--jobs", "1"], tests=tests, keeps=False)


def saved(folder, start):
    """Yields each file that was saved since the start, in their order: what it is of, and the seconds since the file before."""
    files = sorted((os.stat(f"{at}/{it}").st_mtime, it) for at, _, names in os.walk(folder) for it in names)
    before = start
    for moment, name in files:
        if moment >= start:
            yield re.sub(r"(\.decls)?\.oantt$", "", name), moment - before
            before = moment


def main():
    asks = argparse.ArgumentParser(description=__doc__, formatter_class=argparse.RawDescriptionHelpFormatter)
    asks.add_argument("crate")
    asks.add_argument("--test", action="store_true")
    asks.add_argument("--most", type=int, default=30)
    asks.add_argument("--keep")
    options = asks.parse_args()
    with tempfile.TemporaryDirectory(prefix="where-") as room:
        kept = os.path.abspath(options.keep or f"{room}/kept")
        os.makedirs(kept, exist_ok=True)
        rattle, folder, words = words_of(options.crate, options.test)
        start = time.time()
        ran = subprocess.run([rattle, "check", *words, "--incremental", kept], cwd=folder, stdout=subprocess.PIPE, stderr=subprocess.STDOUT, text=True)
        print("\n".join(it for it in ran.stdout.splitlines() if ": error" in it or it.startswith("logic=")))
        parts, kinds = {}, {}
        for name, took in saved(kept, start):
            parts[name] = parts.get(name, 0) + took
            kind = re.sub(r"-.*", "", name.rsplit(".", 1)[-1])
            kinds[kind] = kinds.get(kind, 0) + took
        for name, took in sorted(parts.items(), key=lambda it: -it[1])[: options.most]:
            print(f"{took:8.1f} {name}")
        print(f"{time.time() - start:8.1f} s in all: " + ", ".join(f"{kind} {took:.0f}" for kind, took in sorted(kinds.items(), key=lambda it: -it[1])[:8]))
    return ran.returncode


if __name__ == "__main__":
    raise SystemExit(main())
