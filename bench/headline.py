#!/usr/bin/env python3
"""headline: fills the fences of docs/HEADLINE.md, docs/DEFINITIONS.md and docs/THREADS.md with definitions and clauses as they are in the crates, and the examples
of doc comments with the tests that they name.

  bench/headline.py          writes them
  bench/headline.py --check  says which fences are others

A line `<!-- FILE: NAME NAME .. -->` stands above a fence that holds these definitions of FILE, each with the comment above it, in this order. Of a source file a
NAME is FUNCTION.CLAUSE: that clause of the function's contract. FUNCTION without a dot names the clause that has no name.
A line `/// For example (`TEST` of `CRATE`):` stands above a fence that holds the body of this test.
"""
import glob, os, re, sys

root = os.path.dirname(os.path.dirname(os.path.abspath(__file__)))
PAGES = ["docs/HEADLINE.md", "docs/DEFINITIONS.md", "docs/THREADS.md"]
FENCE = re.compile(r"^<!-- (\S+): ([^\n]+) -->\n```(\w*)\n(.*?)^```$", re.M | re.S)


def text_of(path):
    with open(f"{root}/{path}", encoding="utf-8") as it:
        return it.read()


def definition(text, name):
    """The paragraphs of a specs file that define a name: up to the next definition, so that a record keeps its blank lines."""
    head = re.compile(rf"^(?:(?:abbrev|unfoldable) )?pub (?:(?:record|data) )?{re.escape(name)}(?=[\s:({{])", re.M)
    found = head.search(text)
    if not found:
        return None
    start = found.start()
    while (above := text.rfind("\n", 0, start - 1) + 1) < start and text[above:start].startswith("--"):
        start = above
    end = text.find("\n\n", found.start())
    return text[start:end if end >= 0 else len(text)].rstrip("\n")


def clause(text, function, name=""):
    """A clause of a function's contract."""
    called = f" {name}" if name else ""
    found = re.search(rf"\bfn {function}\b.*?\n(\s*)((?:ensures|requires){called} \{{.*?\}})\n(?=\s*(?:ensures|requires|//|\{{|fn )|\s*\n)", text, re.S)
    return found and re.sub(rf"^{found[1]}", "", found[2], flags=re.M)


def filled(page):
    def fill(found):
        path, names, kind, _ = found.groups()
        text, parts = text_of(path), []
        for name in names.split():
            part = clause(text, *name.split(".")) if path.endswith(".rt") else definition(text, name)
            if part is None:
                sys.exit(f"{page}: {path} has no {name}")
            parts.append(part)
        body = "\n\n".join(parts)
        return f"<!-- {path}: {names} -->\n```{kind}\n{body}\n```"

    return FENCE.sub(fill, text_of(page))


def examples():
    """The source files with an example in a doc comment, each with the text that has the bodies of the tests that the comments name."""
    head = re.compile(r"^( *)/// For example \(`(\w+)` of `(\w+)`\):\n\1/// ```\n(?:\1///[^\n]*\n)*?\1/// ```\n", re.M)

    def fill(found):
        margin, name, crate = found.groups()
        tests = "\n".join(text_of(os.path.relpath(it, root)) for it in sorted(glob.glob(f"{root}/crates/{crate}/src/**/*.rt", recursive=True)))
        body = re.search(rf"^#\[test\]\nfn {name}\(rt: HostRuntime\) \{{\n(.*?)^\}}$", tests, re.M | re.S)
        if not body:
            sys.exit(f"{crate} has no test {name}")
        lines = [f"{margin}/// {line[4:]}".rstrip() for line in body[1].rstrip("\n").split("\n")]
        return f"{margin}/// For example (`{name}` of `{crate}`):\n" + "\n".join([f"{margin}/// ```", *lines, f"{margin}/// ```"]) + "\n"

    for path in sorted(glob.glob(f"{root}/crates/*/src/**/*.rt", recursive=True)):
        page = os.path.relpath(path, root)
        if "/// For example (`" in text_of(page):
            yield page, head.sub(fill, text_of(page))


def main():
    texts = [*((page, filled(page)) for page in PAGES if os.path.exists(f"{root}/{page}")), *examples()]
    off = [(page, text) for page, text in texts if text != text_of(page)]
    if "--check" in sys.argv[1:]:
        for page, _ in off:
            print(f"{page}: a definition or an example is another by now: bench/headline.py writes it")
        return 1 if off else 0
    for page, text in off:
        with open(f"{root}/{page}", "w", encoding="utf-8") as it:
            it.write(text)
    return 0


if __name__ == "__main__":
    sys.exit(main())
