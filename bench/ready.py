#!/usr/bin/env python3
"""ready: what the gate would refuse or a reader would miss, found in a minute and without a proof.

  bench/ready.py [--count]
        Says which files `rt fmt` would change (the gate refuses their crate whole), which edits, of must-fail/ and of planted.txt, name a text that isn't once in its
        file, which edits have no entry in their crate's planted.txt, and if the page of the formats that the program prints (crates/dmlw/src/formats.rt) isn't
        docs/FORMATS.md. --count writes that page.
        Says also where docs/HEADLINE.md isn't what bench/headline.py writes, which places the documents cite that aren't there, which definitions docs/ARCHITECTURE.md
        names that aren't in the file that it names, which tests, transcripts and edits docs/lab/PLANTED.md names that don't exist, which files have no head, which cite what another crate has in proofs/ or specs/inside/, which names a .antt file
        imports and doesn't use (`rt tidy` would drop them), and if release/ is there and isn't of the tree at hand (bench/release.py).
        Warns of house words in the comments and pages that changed since origin/main (else since the last commit), and of names that have several meanings
        (bench/names.py) and had one there. Warnings leave the exit status.

The repository's files stay as they are, but for what --count writes. It needs the kit's `rt` on the PATH.
"""
import collections, glob, os, re, shutil, subprocess, sys, tempfile

import names, planted, release

root = os.path.dirname(os.path.dirname(os.path.abspath(__file__)))
# Words that a reader has to translate: what is meant is a count, `is`, `only`, `if`, `reported`, `after`, `with`, `below`, the result, a prefix, a header.
HOUSE_WORDS = re.compile(r"\b(so many|stands?|stood|standing|alone|just|where|tells?|told|said|hears?|heard|behind|beside|beneath|comes? to|came to|what comes out"
                         r"|hand(?:s|ed)? (?:over|back)|beginnings?|own sectors?|(?:a|no) clause says|one spelling|want of memory|growths?)\b", re.I)


def text_of(path):
    with open(path, encoding="utf-8") as it:
        return it.read()


def not_laid_out():
    with tempfile.TemporaryDirectory() as room:
        shutil.copytree(f"{root}/crates", f"{room}/crates", ignore=shutil.ignore_patterns("out"))
        shutil.copy(f"{root}/crates.txt", room)
        for crate in sorted(os.listdir(f"{room}/crates")):
            said = subprocess.run(["rt", "fmt"], cwd=f"{room}/crates/{crate}", stdout=subprocess.PIPE, stderr=subprocess.STDOUT, text=True).stdout
            for file in re.findall(r"^rt: formatted (\S+)", said, re.M):
                yield f"crates/{crate}/{file}: rt fmt would change it"


def pieces_of(lines):
    """The files of an edit, each with a text that it replaces and the text in its place."""
    file, old = None, None
    for line in lines:
        word, _, rest = line.partition(": ")
        if word == "file":
            file = rest.strip()
        elif word == "old":
            old = rest
        elif line.startswith("new:"):
            yield file, old, rest


def edits_off(edits):
    for crate, name, lines in edits:
        texts = {}
        for file, old, new in pieces_of(lines):
            text = texts.get(file) or text_of(f"{root}/crates/{crate}/{file}")
            if text.count(old) != 1:
                yield f"crates/{crate}: the text of {name} is {text.count(old)} times in {file}"
            # (a later pair is for what the ones before it made)
            texts[file] = text.replace(old, new)


def cited():
    """Places of this repository that its documents name, and that aren't there."""
    for page in [*pages(), f"{root}/docs/lab/PLANTED.md"]:
        for place in sorted(set(re.findall(r"\b((?:crates|docs|bench|examples)/[\w./-]*[\w/])", text_of(page)))):
            bare = place.rstrip(".")
            if not any(os.path.exists(f"{root}/{bare}{end}") for end in ("", ".antt", ".rt")) and not re.search(r"/NAME\b|/out\b", bare):
                yield f"{os.path.relpath(page, root)}: {bare} isn't there"


def sources_off():
    """Files without a head, and citations of what another crate keeps to itself."""
    crates = set(os.listdir(f"{root}/crates"))
    for crate in sorted(crates):
        places = (f"{root}/crates/{crate}/{it}" for it in ("specs/**/*.antt", "proofs/**/*.antt", "src/**/*.rt"))
        for file in sorted(it for place in places for it in glob.glob(place, recursive=True)):
            text = text_of(file)
            if not text.startswith(("--", "//")) and os.path.basename(file) not in ("Answers.antt", "Invariants.antt"):
                yield f"{os.path.relpath(file, root)}: it has no head"
            for name, place in re.findall(r"Rattle\.([a-z_]+)\.(proofs|specs\.inside)\b", text):
                if name in crates - {crate} and not crate.endswith("_tests"):
                    yield f"{os.path.relpath(file, root)}: cites {place} of {name}"


def unused_names():
    """Names that a .antt file imports and doesn't use. A name after a dot is another's field or case."""
    for file in sorted(it for it in glob.glob(f"{root}/crates/*/**/*.antt", recursive=True) if "/out/" not in it):
        text = text_of(file)
        rest = re.sub(r"--.*", "", re.sub(r"^(?:pub )?use .*$", "", text, flags=re.M))
        used = {word.split(".")[0] for word in re.findall(r"[^\s(){}\[\];,λ]+", rest)}
        for names, whole in re.findall(r"^use [\w.-]+(?:\.\{([^}]*)\}| as ([\w-]+))$", text, re.M):
            for name in [it.split(" as ")[-1].strip() for it in names.split(",")] + [whole]:
                if name not in ("", "[]") and not all(part in used or part in rest and "◌" in name for part in name.split("◌") if part):
                    yield f"{os.path.relpath(file, root)}: nothing uses {name}"


def words_off():
    """Definitions that docs/ARCHITECTURE.md names, and that aren't in the file that it names."""
    table = text_of(f"{root}/docs/ARCHITECTURE.md").split("## What proves what")[1].split("\n### ")[0]
    for crate, cell in re.findall(r"^\| `(\w+)` \| (.*) \|$", table, re.M):
        for names, file in re.findall(r"((?:`\w+`(?:, )?)+) \(`(\w+)`\)", cell):
            place = f"{root}/crates/{crate}/specs/{file}.antt"
            text = text_of(place) if os.path.exists(place) else ""
            for name in re.findall(r"\w+", names):
                if not re.search(rf"^ *(?:\w+ )*pub (?:\w+ )*{name}\b", text, re.M):
                    yield f"docs/ARCHITECTURE.md: {name} isn't in {file} of {crate}"


def living():
    """The names of all tests, and the file names of all transcripts."""
    names = set(os.listdir(f"{root}/crates/transcripts/data"))
    for file in glob.glob(f"{root}/crates/*/src/**/*.rt", recursive=True):
        names.update(re.findall(r"#\[test\]\s*(?:#\[[^\n]*\]\s*|//[^\n]*\s*)*(?:pub )?fn (\w+)", text_of(file)))
    return names


def planted_off():
    """Tests and transcripts that docs/lab/PLANTED.md names and that don't exist, and edits that it names and that aren't in must-fail/."""
    page = text_of(f"{root}/docs/lab/PLANTED.md")
    names = living()
    # (a list of names follows the word: `a`, `b` and `c`)
    lists = r"(?:tests?|transcripts?)\s+((?:`[^`]+`(?:,\s+and\s+|,\s+|\s+and\s+|\s+or\s+)?)+)"
    named = re.findall(r"`([^`]+)`", " ".join(re.findall(lists, page)))
    # (each name with an underscore in the column of what refuses a bug is one too, and in the list of what `rt try` fails)
    rows = [line.split(" | ")[-1] for line in page.split("## What only tests refuse")[1].split("## What `rt plant`")[0].split("\n") if line.startswith("| ")]
    fails = page.split("these tests fail:")[1].split("\n\n")[1]
    named += re.findall(r"`([a-z0-9]+(?:_[a-z0-9]+)+|[\w-]+\.t)`", " ".join(rows))
    named += re.findall(r":\s+`(\w+)`", fails)
    for name in sorted(set(named)):
        if re.fullmatch(r"\w+|[\w-]+\.t", name) and name not in names:
            yield f"docs/lab/PLANTED.md: no test {name}"
    never = page.split("## The bodies that must never pass")[1].split("### ")[0]
    for line in never.split("\n"):
        row = line.strip("| ").split(" | ")
        if not line.startswith("| ") or len(row) != 2 or row[1] == "Refused in":
            continue
        # (a row may name edits of several crates, and bugs that are only planted)
        for crates, edits in re.findall(r"((?:`\w+`(?: and )?)+): ([^;`|]+)", row[1]):
            for crate in re.findall(r"\w+(?=`)", crates):
                for edit in [] if "(planted)" in edits else edits.split(", "):
                    slug = planted.slug_of(edit.strip())
                    if not os.path.exists(f"{root}/crates/{crate}/must-fail/{slug}.edit"):
                        yield f"docs/lab/PLANTED.md: no edit {slug} of {crate}"


def pages():
    """The documents: all but the page of planted bugs, which is data."""
    found = [*glob.glob(f"{root}/*.md"), *glob.glob(f"{root}/docs/**/*.md", recursive=True), *glob.glob(f"{root}/crates/*/README.md")]
    return sorted(it for it in found if not it.endswith("/PLANTED.md"))


def prose_of(file, line):
    """The prose of a line of a file: a page's line, or a comment."""
    mark = {".md": "", ".rt": "//", ".antt": "--", ".py": "#"}.get(os.path.splitext(file)[1])
    return line if mark is not None and line.lstrip().startswith(mark) else ""


def git(*words):
    return subprocess.run(["git", *words], cwd=root, stdout=subprocess.PIPE, stderr=subprocess.DEVNULL, text=True).stdout


def house_words():
    """House words of which a file has more than at the last common commit with origin/main."""
    changed = git("diff", "-U0", git("merge-base", "HEAD", "origin/main").strip() or "HEAD")
    more, file = {}, ""
    for line in changed.split("\n"):
        if line.startswith("+++ "):
            file = line[6:]
        elif line[:1] in "+-" and not line.startswith("--- "):
            counts = more.setdefault(file, collections.Counter())
            for word in HOUSE_WORDS.findall(prose_of(file, line[1:])):
                counts[word.lower()] += 1 if line[0] == "+" else -1
    for file in sorted(more):
        words = [f"{word} {count}" for word, count in sorted(more[file].items()) if count > 0]
        if words:
            yield f"{file}: house words, more than before: {', '.join(words)}"


def names_off():
    """Names with several meanings that had at most one at the last common commit with origin/main."""
    base = git("merge-base", "HEAD", "origin/main").strip() or "HEAD"
    with tempfile.TemporaryDirectory() as room:
        archive = subprocess.run(["git", "archive", base, "crates"], cwd=root, stdout=subprocess.PIPE, stderr=subprocess.DEVNULL).stdout
        subprocess.run(["tar", "-x", "-C", room], input=archive)
        known = {name for name, _ in names.several(room)}
    for name, found in names.several():
        if name not in known:
            yield f"{name} has several meanings: " + ", ".join(file for _, file in found)


def headline_off():
    said = subprocess.run([sys.executable, f"{root}/bench/headline.py", "--check"], stdout=subprocess.PIPE, text=True).stdout
    return said.split("\n")[:-1]


def formats_off():
    """If the page of the formats in the program isn't the document; --count writes it."""
    place = f"{root}/crates/dmlw/src/formats.rt"
    kept = text_of(place)
    head, _, rest = kept.partition('r#"')
    wanted = f'{head}r#"{text_of(f"{root}/docs/FORMATS.md")}{rest[rest.index(chr(34) + "#;"):]}'
    if wanted == kept:
        return []
    if "--count" not in sys.argv:
        return ["crates/dmlw/src/formats.rt: not docs/FORMATS.md; bench/ready.py --count writes it"]
    with open(place, "w", encoding="utf-8") as it:
        it.write(wanted)
    return []


def main():
    crates = sorted(os.listdir(f"{root}/crates"))
    bugs = {crate: list(planted.entries_of(crate)) for crate in crates}
    kept = [(edit.split("/")[-3], os.path.basename(edit)[:-5], text_of(edit).split("\n")) for edit in sorted(glob.glob(f"{root}/crates/*/must-fail/*.edit"))]
    more = [(crate, planted.slug_of(name), edit) for crate in crates for name, _, edit in bugs[crate] if edit]
    found = [*not_laid_out(), *edits_off(kept + more), *cited(), *planted_off(), *words_off(), *headline_off(), *sources_off(), *unused_names(), *formats_off(), *release.off()]
    for crate, name, _ in kept:
        if not any(planted.slug_of(bug) == name for bug, _, _ in bugs[crate]):
            found.append(f"crates/{crate}/must-fail/{name}.edit: no entry in planted.txt")
    for warning in [*house_words(), *names_off()]:
        print(f"warning: {warning}")
    print("\n".join(found) or "ready")
    return 1 if found else 0


if __name__ == "__main__":
    sys.exit(main())
