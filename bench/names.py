#!/usr/bin/env python3
"""names: prints each name that stands for several types or definitions, with their places and what each is, and the count of such names.

  bench/names.py          all of them
  bench/names.py FILE     those that aren't in the list that an earlier run wrote to FILE

A name counts if two crates or two modules define it: a struct, enum, trait or type of src/, or a record, data, abbrev or unfoldable of specs/ and proofs/. Two of them
are no such pair if they have to be called alike: a type of src/ and the one record of its own crate that is its view. Left out are the files whose names the prover asks
for (Answers, Invariants, Proof), and those of examples, whose names nobody imports.
"""
import collections, glob, os, re, sys

root = os.path.dirname(os.path.dirname(os.path.abspath(__file__)))
LEFT_OUT = re.compile(r"/proofs/(.*/)?(Answers|Invariants|Proof|\w*Examples|Counterexamples)\.antt$")
TYPE = re.compile(r"^(?:pub(?:\([a-z ]+\))? )?(struct|enum|trait|type) (\w+)", re.M)
DEFINITION = re.compile(r"^(?:(?:pub|mutual|partial) )*(record|data|abbrev|unfoldable) (?:pub )?([^\s:({]+)", re.M)


def several(top=root):
    """The names with several meanings, each with the kinds and files of its definitions."""
    places = collections.defaultdict(list)
    for folder in ("src/**/*.rt", "specs/**/*.antt", "proofs/**/*.antt"):
        for file in sorted(glob.glob(f"{top}/crates/*/{folder}", recursive=True)):
            if not LEFT_OUT.search(file):
                with open(file, encoding="utf-8") as it:
                    for kind, name in (TYPE if file.endswith(".rt") else DEFINITION).findall(it.read()):
                        places[name].append((kind, os.path.relpath(file, f"{top}/crates")))
    for name, found in sorted(places.items()):
        pair = len(found) == 2 and len({file.split(os.sep)[0] for _, file in found}) == 1 and {file.endswith(".rt") for _, file in found} == {False, True}
        if len({file for _, file in found}) > 1 and not pair:
            yield name, found


def main():
    known = set()
    if sys.argv[1:]:
        with open(sys.argv[1], encoding="utf-8") as it:
            known = {line.split(":")[0] for line in it}
    found = [(name, places) for name, places in several() if name not in known]
    for name, places in found:
        print(f"{name}: " + ", ".join(f"{kind} {file}" for kind, file in places))
    print(f"{len(found)} names with several meanings")


if __name__ == "__main__":
    main()
