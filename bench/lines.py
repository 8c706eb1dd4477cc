#!/usr/bin/env python3
"""lines: prints a table of each crate: its lines of code, tests, definitions with their laws, and proofs; its must-fail edits; its files; and how often its proofs and laws
call `ap (λ`, `subst`, `grind`, `simp` and `rw`.

  bench/lines.py
        Tests are the files that only a test build reads: tests.rt, what lies in tests/, and all of a crate whose name ends in _tests or begins with test_.
"""
import glob, os, re

CALLS = {"ap (λ": r"\bap \(λ", "subst": r"\bsubst\b", "grind": r"\bgrind\b", "simp": r"\bsimp\b", "rw": r"\brw\b"}

root = os.path.dirname(os.path.dirname(os.path.abspath(__file__)))


def count(paths):
    return sum(open(path, encoding="utf-8").read().count("\n") for path in paths)


def calls(paths):
    """How often the bodies of these files call each of CALLS; lines that import are left out."""
    bodies = "\n".join(line for path in paths for line in open(path, encoding="utf-8").read().split("\n") if not line.startswith("use "))
    return [len(re.findall(it, bodies)) for it in CALLS.values()]


def row(crate):
    at = f"{root}/crates/{crate}"
    sources = glob.glob(f"{at}/src/**/*.rt", recursive=True)
    is_test = lambda path: crate.endswith("_tests") or crate.startswith("test_") or re.search(r"/(\w+_)?tests(/|\.rt$)", path[len(at):])
    specs, proofs = (glob.glob(f"{at}/{it}/**/*.antt", recursive=True) for it in ("specs", "proofs"))
    return (count(it for it in sources if not is_test(it)), count(it for it in sources if is_test(it)), count(specs), count(proofs),
            len(glob.glob(f"{at}/must-fail/*.edit")), sum(len(files) for folder, _, files in os.walk(at) if "/out" not in folder), *calls(specs + proofs))


def main():
    with open(f"{root}/crates.txt", encoding="utf-8") as it:
        crates = [line.split(":")[0] for line in it if ":" in line and not line.startswith("#")]
    heads = ["Crate", "Code", "Tests", "Definitions and their laws", "Proofs", "Must-fail edits", "Files", *(f"`{it}`" for it in CALLS)]
    print(f"| {' | '.join(heads)} |\n{'|---' * len(heads)}|")
    rows = [(f"`{crate}`", row(crate)) for crate in crates]
    for name, numbers in [*rows, ("all", [sum(it) for it in zip(*(numbers for _, numbers in rows))])]:
        print(f"| {name} | " + " | ".join(f"{it:,}" for it in numbers) + " |")


if __name__ == "__main__":
    main()
