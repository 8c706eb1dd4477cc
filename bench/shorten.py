#!/usr/bin/env python3
"""Shortens the proofs of a crate where the check still passes; statements are never touched. In the crate's folder, which `rt check` passes:

  bench/shorten.py [--way grind|rw|subst|eta|aps|parts|whole|names|using]..      (all of them, in this order, if none is named)

  grind   a lemma's body becomes one `grind (arith, ..)` over the lemmas that it cites, if that is shorter
  rw      chains of `ap (λ ..) e` become `rw`
  subst   `subst (λ ..) e t` becomes `rw`
  eta     `ap (λ x. f x) e` becomes `ap f e`
  aps     chains of `ap (λ ..) e` become one `grind` over the equations
  parts   values of fields, of arms and of typed `let`s become one `grind` over what they cite, by name or as applied
  whole   bodies of three lines and more become one `grind` over the lemmas as they were applied
  names   names of definitions go from the lists of tactics
  using   a short Answers.antt goes, and its lemmas go into `using(..)` at the function

All places of a way are tried at once. What the check refuses is put back, and the check is run again until it passes; so each way takes some
checks of the crate. Run it in a clone, on an idle machine, and look at the time of a check from nothing before and after. `rt tidy` follows.
"""
import argparse
import os
import pathlib
import re
import subprocess
import sys
import time

NAME = r"[^\s(){}\[\],;.:∙∷λ≡→←|↦]+"
WORDS = set("let in λ ap sym refl omega arith record elim inl inr absurd subst rw simp cc search rules grind where if then else tt Type".split())
TOKEN = re.compile(r"--[^\n]*|[()\[\]{}]|,|;|[^\s(){}\[\],;]+")
OPEN, CLOSE = "([{", ")]}"
STARTS = {"in", "(", ",", ";", "=", "↦"}
NO_CHAIN = {"let", "elim", "λ", "=", "↦", ":", "→", "≡", "×", "rw", "simp", "grind", "omega", "search", "cc"}
WIDTH = 100


class Token:
    def __init__(self, match):
        self.text, self.start, self.end = match.group(0), match.start(), match.end()


class Site:
    """A place of a file, with the texts to try in its place, the first one first."""

    def __init__(self, start, end, texts):
        self.start, self.end, self.texts = start, end, texts


def proofs():
    return sorted([*pathlib.Path("proofs").rglob("*.antt"), *pathlib.Path("specs").rglob("*Laws.antt")])


def imports_of(text):
    """Of each imported name its module."""
    found = {}
    for module, names in re.findall(r"(?m)^use ([\w.]+)\.\{([^}]*)\}", text):
        found.update((name.strip(), module) for name in names.replace("\n", " ").split(",") if name.strip())
    return found


def file_of(module):
    parts = module.split(".")
    file = pathlib.Path("..", parts[1], *parts[2:]).with_suffix(".antt") if len(parts) > 2 else None
    return file if file and file.exists() else None


def is_definition(name, imports, text):
    declared = r"(?m)^\s*(?:abbrev|unfoldable)\s+(?:pub )?" + re.escape(name) + r"\s*:"
    if re.search(declared, text):
        return True
    module = imports.get(name)
    if module is None or module.endswith("Prelude"):
        return module is not None
    file = file_of(module)
    return bool(re.search(declared, file.read_text())) if file else module.startswith("Rattle.std.specs.")


def split_at(text, mark):
    """The parts of a text between marks that no bracket encloses."""
    parts, depth, part = [], 0, ""
    for sign in text:
        depth += (sign in OPEN) - (sign in CLOSE)
        if sign == mark and depth == 0:
            parts.append(part)
            part = ""
        else:
            part += sign
    return [*parts, part]


def squeezed(text):
    return re.sub(r"\s+", " ", text).strip()


# The bodies of lemmas.

def is_data(result, imports):
    """Whether a declaration's result, in words, is a value and no proof: a tactic would choose one."""
    head = result[0] if result else ""
    return head in ("ℕ", "Bool", "List", "Option", "Result", "Content", "View", "Unit") and "≡" not in result or ".declared." in imports.get(head, "") and "≡" not in result


def bodies(text):
    """Of each equation of a lemma: where its body is, and the names and recursive calls that the body cites."""
    head = text[: text.find("\n\n")] if "\n\n" in text else ""
    here = set(re.findall(r"(?m)^\s*(?:pub )?(" + NAME + r") :", text))
    for found in re.finditer(r"(?m)^( *)(?:pub )?(" + NAME + r") : ", text):
        indent, name = found.group(1), found.group(2)
        if name in WORDS or text[found.start():].lstrip().startswith(("abbrev", "pub abbrev", "unfoldable")):
            continue
        offset, marks, end = found.start(), [], len(text)
        for number, line in enumerate(text[found.start():].split("\n")):
            if number and line.strip():
                deep = len(line) - len(line.lstrip())
                rest = line[len(indent) + len(name):]
                if line.startswith(indent + name) and (not rest or rest[0] == " ") and not rest.lstrip().startswith(": "):
                    marks.append(offset)
                elif deep <= len(indent) and line.strip()[0] not in "])}" and not line.strip().startswith("unfolding"):
                    end = offset
                    break
                elif marks and line.strip().startswith("where"):
                    marks.append(-offset)
            offset += len(line) + 1
        first = next((mark for mark in marks if mark > 0), end)
        if is_data(squeezed(text[found.end() : first]).split("→")[-1].split(), imports_of(text)):
            continue
        for start in (mark for mark in marks if mark > 0):
            later = [mark for mark in marks if abs(mark) > start]
            stop = abs(later[0]) if later else end
            equal = next((m for m in re.finditer(r"(?<=\s)=(?=\s)", text[start:stop])
                          if text[start : start + m.start()].count("{") == text[start : start + m.start()].count("}")), None)
            if not equal or (later and later[0] < 0):
                continue
            body = re.sub(r"(\n\s*--[^\n]*)+$", "", text[start + equal.end() : stop].rstrip()).rstrip()
            cited = [word for word in dict.fromkeys(re.findall(NAME, body)) if word not in WORDS and word != name and ("-" in word or "_" in word)
                     and re.match(r"^[a-z_≤+][\w'≤\-+]*$", word) and (word in here or re.search(r"(?<![\w\-≤])" + re.escape(word) + r"(?![\w\-≤])", head))]
            calls = dict.fromkeys(squeezed(re.sub(r" (in|let)$", "", name + call.group(1))) for call in re.finditer(
                r"(?<![\w\-.])" + re.escape(name) + r"((?:\s+(?:\([^()]*(?:\([^()]*\)[^()]*)*\)|[\w.']+))+)", body))
            yield start + equal.end(), start + equal.end() + len(body), body, [*calls, *cited], len(indent)


def grind_sites(text):
    for start, end, body, cited, indent in bodies(text):
        if body.strip().startswith(("grind", "simp (", "omega")):
            continue
        new = f"grind ({', '.join(['arith', *cited])})" if cited else "grind arith"
        dear = "ap (λ" in body or re.search(r"(?<![\w-])subst(?![\w-])", body)
        if len(new) <= (1.0 if dear else 0.7) * len(squeezed(body)) and (dear or "\n" in body):
            yield Site(start, end, [laid(text, start, " " + new, indent)])


def laid(text, start, new, indent):
    """A body, on a line of its own if it doesn't fit behind the equation's sign."""
    column = start - text.rfind("\n", 0, start) - 1
    if column + len(new) <= WIDTH:
        return new
    return "\n" + filled(new.strip(), " " * (indent + 4), 0)


def filled(text, pad, column):
    """A text in lines of at most 100 columns; the first begins at the column, or with the pad if that is 0."""
    lines, at = ["" if column else pad], column or len(pad)
    for word in text.split(" "):
        if at + 1 + len(word) > WIDTH - 2 and lines[-1].strip():
            lines.append(pad + word)
            at = len(pad) + len(word)
        else:
            gap = " " if lines[-1].strip() else ""
            lines[-1] += gap + word
            at += len(gap) + len(word)
    return "\n".join(lines)


# Chains of `ap` and calls of `subst`.

def close_of(tokens, start):
    depth = 0
    for index in range(start, len(tokens)):
        depth += (tokens[index].text in OPEN) - (tokens[index].text in CLOSE)
        if depth == 0:
            return index
    return len(tokens) - 1


def flat(tokens):
    """The words that no bracket encloses."""
    depth, found = 0, []
    for token in tokens:
        depth += (token.text in OPEN) - (token.text in CLOSE)
        if depth == 0:
            found.append(token.text)
    return found


def source(text, tokens):
    return squeezed(text[tokens[0].start : tokens[-1].end])


def unwrapped(tokens):
    whole = tokens and tokens[0].text == "(" and close_of(tokens, 0) == len(tokens) - 1
    return tokens[1:-1] if whole else tokens


def equation(tokens):
    """An equation's tokens, and whether it is used from right to left."""
    inner = unwrapped(tokens)
    if inner and inner[0].text == "sym" and "∙" not in flat(inner):
        return True, unwrapped(inner[1:])
    return False, inner


def step(tokens):
    """Of `ap (λ ..) e` the equation; else None."""
    if len(tokens) < 4 or tokens[0].text != "ap" or tokens[1].text != "(" or tokens[2].text != "λ":
        return None
    rest = tokens[close_of(tokens, 1) + 1 :]
    if not rest or (len(rest) > 1 and unwrapped(rest) is rest):
        return None
    found = equation(rest)
    return found if found[1] else None


def in_brackets(text, tokens):
    return source(text, tokens) if len(tokens) == 1 else f"({source(text, tokens)})"


def chained(text, parts):
    steps = []
    while parts and step(parts[0]):
        steps.append(step(parts[0]))
        parts = parts[1:]
    if not steps:
        one = source(text, parts[0])
        return one if len(parts) == 1 else f"{one} ∙ {chained(text, parts[1:])}"
    if len(steps) == 1 and not steps[0][0]:
        head = "rw " + in_brackets(text, steps[0][1])
    else:
        head = "rw (" + ", ".join(("← " if back else "") + source(text, tokens) for back, tokens in steps) + ")"
    if not parts:
        return head
    rest = chained(text, parts)
    return f"{head} {rest}" if re.match(r"^[\w'.\-]+$", rest) else f"{head} ({rest})"


def parts_of(tokens):
    parts, part, depth = [], [], 0
    for token in tokens:
        depth += (token.text in OPEN) - (token.text in CLOSE)
        if token.text == "∙" and depth == 0:
            parts.append(part)
            part = []
        else:
            part.append(token)
    return [*parts, part]


def chain_texts(text, tokens):
    parts = parts_of(tokens)
    if all(parts) and any(step(part) for part in parts):
        new = chained(text, parts)
        return [new] if len(new) < len(source(text, tokens)) else []
    return []


def subst_texts(text, tokens):
    if len(tokens) < 6 or tokens[0].text != "subst" or tokens[1].text != "(" or tokens[2].text != "λ":
        return []
    rest, words = tokens[close_of(tokens, 1) + 1 :], []
    while rest:
        end = close_of(rest, 0) + 1 if rest[0].text in OPEN else 1
        if end < len(rest) and rest[end].text.startswith(".") and text[rest[end].start - 1] == ")":
            end += 1
        words.append(rest[:end])
        rest = rest[end:]
    if len(words) != 2:
        return []
    back, inner = equation(words[0])
    last = source(text, words[1])
    plain, turned = in_brackets(text, inner), f"(← {source(text, inner)})"
    return [f"rw {plain} {last}", f"rw {turned} at {last}"] if back else [f"rw {turned} {last}", f"rw {plain} at {last}"]


def expressions(text):
    """The expressions that follow a sign at which one begins, each with the indent of its equation."""
    tokens = [Token(match) for match in TOKEN.finditer(text)]
    index, begins, base = 0, False, 0
    while index < len(tokens):
        token = tokens[index]
        if begins and not token.text.startswith("--") and token.text not in ("let", "elim", "λ", "record", "|"):
            depth, end = 0, index
            while end < len(tokens):
                if depth == 0 and (tokens[end].text in CLOSE or tokens[end].text in (",", ";", "|", "in")):
                    break
                gap = text[tokens[end - 1].end : tokens[end].start] if end > index and depth == 0 else ""
                if "\n\n" in gap or ("\n" in gap and len(gap) - gap.rfind("\n") - 1 <= base):
                    break
                depth += (tokens[end].text in OPEN) - (tokens[end].text in CLOSE)
                end += 1
            found = tokens[index:end]
            if found and not NO_CHAIN & set(flat(found)) and not any(it.text.startswith("--") for it in found):
                taken = yield found
                if taken:
                    index, begins = end, False
                    continue
        if token.text == "=":
            line = text[text.rfind("\n", 0, token.start) + 1 : token.start]
            base = len(line) - len(line.lstrip())
        begins = token.text in STARTS
        index += 1


def expression_sites(text, texts_of):
    walk, taken = expressions(text), None
    while True:
        try:
            tokens = walk.send(taken)
        except StopIteration:
            return
        texts = texts_of(text, tokens)
        taken = bool(texts)
        if texts:
            start = tokens[0].start
            line = text[text.rfind("\n", 0, start) + 1 : start]
            pad = " " * (len(line) - len(line.lstrip()) + 4)
            yield Site(start, tokens[-1].end, [one if len(line) + len(one) <= WIDTH else filled(one, pad, len(line)) for one in texts])


def name_sites(text):
    imports = imports_of(text)
    for match in re.finditer(r"\b(grind|simp|search) \(", text):
        depth, end = 1, match.end()
        while end < len(text) and depth:
            depth += (text[end] in OPEN) - (text[end] in CLOSE)
            end += 1
        words = [squeezed(word) for word in split_at(text[match.end() : end - 1], ",")]
        kept = [word for word in words if not re.match(r"^[a-z_][\w\-']*$", word) or word in ("arith", "rules", "common_steps") or not is_definition(word, imports, text)]
        if kept and len(kept) < len(words):
            alone = len(kept) == 1 and kept[0] in ("arith", "rules")
            yield Site(match.start(), end, [f"{match.group(1)} {kept[0]}" if alone else f"{match.group(1)} ({', '.join(kept)})"])


# Parts of a body: the values of typed `let`s, fields and arms; and whole bodies by the lemmas as they were applied.

def applied(text, tokens, cited):
    """The applications of the cited lemmas that lie in no other such application."""
    found, index = [], 0
    while index < len(tokens):
        if tokens[index].text in cited:
            end = index + 1
            while end < len(tokens) and (tokens[end].text in OPEN or re.match(r"^[\w'.\-⊥∅]+$", tokens[end].text) and tokens[end].text not in WORDS and not tokens[end].text.endswith(".")):
                gap = text[tokens[end - 1].end : tokens[end].start]
                if not gap:
                    break
                end = close_of(tokens, end) + 1 if tokens[end].text in OPEN else end + 1
            found.append(tokens[index:end])
            index = end
        else:
            index += 1
    return found


def lets_of(tokens):
    """The names that lets bind without a pattern, each with the tokens of its value."""
    bound, index = {}, 0
    while index < len(tokens):
        if tokens[index].text == "let" and index + 2 < len(tokens) and re.match(r"^[a-z][\w'\-]*$", tokens[index + 1].text):
            name, at, depth = tokens[index + 1].text, index + 2, 0
            while at < len(tokens) and not (depth == 0 and tokens[at].text == "="):
                depth += (tokens[at].text in OPEN) - (tokens[at].text in CLOSE)
                at += 1
            end, depth, deep = at + 1, 0, 0
            while end < len(tokens) and not (depth == 0 and deep == 0 and tokens[end].text in ("in", ";")):
                depth += (tokens[end].text in OPEN) - (tokens[end].text in CLOSE)
                deep += (tokens[end].text == "let") - (tokens[end].text == "in")
                end += 1
            bound[name] = tokens[at + 1 : end]
            index = at + 1
        else:
            index += 1
    return bound


def inlined(text, tokens, bound, depth=0):
    """A text with bound names replaced by their values; None if it gets long."""
    out, last = "", None
    for token in tokens:
        if last is not None and text[last.end : token.start]:
            out += " "
        head, _, field = token.text.partition(".")
        if head in bound and depth < 3:
            value = inlined(text, bound[head], {k: v for k, v in bound.items() if k != head}, depth + 1)
            if value is None or len(value) > 90:
                return None
            out += (f"({value})" if " " in value or field else value) + (f".{field}" if field else "")
        else:
            out += token.text
        last = token
    return out if len(out) <= 160 else None


def cited_in(text, tokens, imports, here):
    cited = []
    for token in tokens:
        word = token.text
        if word in WORDS or word in cited or not re.match(r"^[a-z_≤+][\w'≤\-+]*$", word):
            continue
        if word in imports and not is_definition(word, imports, text) and ".declared." not in imports[word] and "Prelude" not in imports[word]:
            cited.append(word)
        elif word in here and word not in imports and ("-" in word or "_" in word):
            cited.append(word)
    return cited


def body_texts(text, tokens, imports, here):
    cited = cited_in(text, tokens, imports, here)
    texts = [f"grind ({', '.join(['arith', *cited])})" if cited else "grind arith"]
    bound = lets_of(tokens)
    calls = []
    for call in applied(text, tokens, set(cited)):
        said = inlined(text, call, bound)
        calls.append(said if said else call[0].text)
    calls = list(dict.fromkeys(calls))
    if calls and any(" " in call for call in calls):
        texts.append(f"grind ({', '.join(['arith', *calls])})")
    return texts


def part_sites(text):
    imports = imports_of(text)
    here = set(re.findall(r"(?m)^(?:pub )?(" + NAME + r") :", text))
    tokens = [Token(match) for match in TOKEN.finditer(text)]
    tokens = [token for token in tokens if not token.text.startswith("--")]
    for index, token in enumerate(tokens):
        if token.text not in ("↦", "=") or index + 1 >= len(tokens):
            continue
        line = text[text.rfind("\n", 0, token.start) + 1 : token.start]
        if token.text == "=" and not line.startswith(" "):
            continue
        base = len(line) - len(line.lstrip())
        start = index + 1
        if tokens[start].text == "λ":
            while start < len(tokens) and not tokens[start].text.endswith("."):
                start += 1
            start += 1
        if start >= len(tokens) or tokens[start].text in ("elim", "record", "grind", "omega", "simp", "λ", "search", "{", "cc"):
            continue
        depth, deep, end = 0, 0, start
        while end < len(tokens):
            word = tokens[end].text
            if depth == 0 and deep == 0 and (word in CLOSE or word in (";", "|", ",", "in")):
                break
            gap = text[tokens[end - 1].end : tokens[end].start] if end > start and depth == 0 else ""
            if "\n\n" in gap or ("\n" in gap and len(gap) - gap.rfind("\n") - 1 <= base):
                break
            depth += (word in OPEN) - (word in CLOSE)
            deep += (word == "let") - (word == "in")
            end += 1
        found = tokens[start:end]
        if not found:
            continue
        old = text[found[0].start : found[-1].end]
        if "\n" not in old or "--" in old:
            continue
        before = text[text.rfind("\n", 0, found[0].start) + 1 : found[0].start]
        pad, texts = " " * (base + 4), []
        for one in body_texts(text, found, imports, here):
            laid_out = one if len(before) + len(one) <= WIDTH else filled(one, pad, len(before))
            if laid_out.count("\n") < old.count("\n"):
                texts.append(laid_out)
        if texts:
            yield Site(found[0].start, found[-1].end, texts)


def whole_sites(text):
    imports = imports_of(text)
    here = set(re.findall(r"(?m)^\s*(?:pub )?(" + NAME + r") :", text))
    for start, end, body, cited, indent in bodies(text):
        if body.strip().startswith(("grind", "simp (", "omega", "record", "elim")) or body.count("\n") < 2 or "--" in body:
            continue
        tokens = [token for token in (Token(match) for match in TOKEN.finditer(text, start, end))]
        one = body_texts(text, tokens, imports, here)
        own = [it for it in cited if " " in it]
        texts = []
        for it in one:
            it = it.replace("grind (arith", f"grind (arith, {', '.join(own)}" if own else "grind (arith")
            new = laid(text, start, " " + it, indent)
            if new.count("\n") < body.count("\n"):
                texts.append(new)
        if texts:
            yield Site(start, end, texts)


# Equations that are taken through a function: `ap (λ ..) e` and chains of them become one `grind` over the equations.

def through_texts(text, tokens):
    parts = parts_of(tokens)
    if not all(parts) or not any(step(part) for part in parts):
        return []
    facts = []
    for part in parts:
        found = step(part)
        facts.append(source(text, unwrapped(found[1]) if found else part))
    facts = [it for it in dict.fromkeys(facts) if it != "refl"]
    if any(it.startswith("←") for it in facts):
        return []
    new = f"grind ({', '.join(['arith', *facts])})" if facts else "grind arith"
    return [new] if len(new) <= len(source(text, tokens)) + 2 and "ap (λ" not in new else []


def eta_texts(text, tokens):
    """`ap (λ x. f x) e` is `ap f e`."""
    if len(tokens) < 4 or tokens[0].text != "ap" or tokens[1].text != "(" or tokens[2].text != "λ":
        return []
    end = close_of(tokens, 1)
    inner = tokens[3:end]
    if inner and inner[0].text == "(":
        close = close_of(inner, 0)
        name, rest = inner[1].text, inner[close + 1 :]
        if not rest or rest[0].text != ".":
            return []
        rest = rest[1:]
    elif inner and inner[0].text.endswith("."):
        name, rest = inner[0].text[:-1], inner[1:]
    else:
        return []
    if len(rest) < 2 or rest[-1].text != name or any(re.search(r"(?<![\w'-])" + re.escape(name) + r"(?![\w'-])", it.text) for it in rest[:-1]):
        return []
    if any(re.match(r"^[^\w(){}\[\]'\-.]+$", it) or it in ("λ", "let", "elim", "if", "record") for it in flat(rest)):
        return []
    head = source(text, rest[:-1])
    head = head if len(rest) == 2 else f"({head})"
    return [f"ap {head} {text[tokens[end + 1].start : tokens[-1].end]}"]


def ap_expressions(text):
    """Every `ap (λ ..) e` wherever it is, with its one argument."""
    tokens = [Token(match) for match in TOKEN.finditer(text)]
    tokens = [token for token in tokens if not token.text.startswith("--")]
    for index, token in enumerate(tokens):
        if token.text == "ap" and index + 3 < len(tokens) and tokens[index + 1].text == "(" and tokens[index + 2].text == "λ":
            end = close_of(tokens, index + 1) + 1
            if end < len(tokens):
                last = close_of(tokens, end) if tokens[end].text in OPEN else end
                yield tokens[index : last + 1]


def eta_sites(text):
    for tokens in ap_expressions(text):
        for one in eta_texts(text, tokens):
            yield Site(tokens[0].start, tokens[-1].end, [one])


# Trying.

def check():
    done = subprocess.run(["rt", "check"], capture_output=True, text=True)
    return done.returncode == 0, done.stdout + done.stderr


def attempt(way, sites_of):
    """Tries all sites of a way; a refused one goes on to its next text, and at last back to what it was."""
    began = time.time()
    old = {file: file.read_text() for file in proofs()}
    sites = {file: [*sites_of(text)] for file, text in old.items()}
    level = {}
    while True:
        spans, tried = {}, 0
        for file, text in old.items():
            out, at = "", 0
            spans[str(file)] = here = []
            for number, site in enumerate(sites[file]):
                texts = site.texts[level.get((file, number), 0) :]
                if not texts or site.start < at:
                    continue
                out += text[at : site.start]
                first = out.count("\n") + 1
                out += texts[0]
                here.append((first, out.count("\n") + 1, (file, number)))
                at, tried = site.end, tried + 1
            new = out + text[at:]
            if file.read_text() != new:
                file.write_text(new)
        if not tried:
            return
        passes, said = check()
        # A tactic that chose data would change what an example means: that counts as refused.
        chosen = re.findall(r"(?m)^\./(\S+?\.antt):(\d+):\d+: note: .*has chosen a term", said)
        refused = set()
        for file, line in re.findall(r"(?m)^\./(\S+?\.antt):(\d+):\d+: error", said) + chosen:
            near = sorted((max(first - int(line), int(line) - last, 0), site) for first, last, site in spans.get(file, []))
            refused.update(site for far, site in near if far == 0)
            if near and near[0][0]:
                refused.add(near[0][1])
        print(f"{way}: {tried} tried, {len(refused)} refused, {time.time() - began:.0f} s", flush=True)
        if passes and not refused:
            return
        if not refused:
            for file, text in old.items():
                file.write_text(text)
            pathlib.Path("shorten.log").write_text(said)
            sys.exit(f"{way}: no error could be placed, see shorten.log; all is put back")
        for site in refused:
            level[site] = level.get(site, 0) + 1


# Short answers.

def function_of(path):
    """The source file of a function, and where its signature begins."""
    parts = path.parts
    for cut in range(len(parts) - 1, -1, -1):
        rest = parts[cut:]
        files = [pathlib.Path("src", *parts[:cut]).with_suffix(".rt")] if cut else [pathlib.Path("src/lib.rt"), pathlib.Path("src/main.rt")]
        for file in (file for file in files if file.exists() and len(rest) <= 2):
            text, indent = file.read_text(), "    " * (len(rest) - 1)
            found = [m.start() for m in re.finditer(r"(?m)^" + indent + r"(?:pub(?:\([a-z]+\))? )?(?:const )?fn " + re.escape(rest[-1]) + r"(?=[(<])", text)]
            if len(rest) == 2:
                block = lambda at: [*re.findall(r"(?m)^(?:impl|pub trait|trait)\b[^\n{]*", text[:at]), ""][-2 if re.search(r"(?m)^(?:impl|pub trait|trait)\b", text[:at]) else -1]
                found = [at for at in found if re.search(r"\b" + re.escape(rest[0]) + r"\b", block(at)) and " for " not in block(at)]
            if len(found) == 1:
                return file, found[0], indent
    return None


def lemmas_of(text, crate):
    """The paths of the lemmas that an answer cites; None if one of them can't stand in an attribute."""
    paths = []
    for name, module in imports_of(text).items():
        if module.startswith("Rattle.std.proofs.Common") or module.endswith("Prelude") or "declared" in module:
            continue
        parts = module.split(".")
        is_std = parts[1] == "std"
        if is_std and ".lemmas." not in module and ".Math." not in module:
            continue
        if not is_std and file_of(module) is None:
            return None
        if not is_std and is_definition(name, {name: module}, ""):
            continue
        if not re.match(r"^[a-z]\w*$", name):
            return None
        paths.append("::".join([parts[1] if parts[1] != crate else "crate", *parts[2:], name]))
    return paths if 0 < len(paths) <= 5 else None


def using():
    crate, began = pathlib.Path(".").resolve().name, time.time()
    answers, sources = {}, {}
    for file in sorted(pathlib.Path("proofs").rglob("Answers.antt")):
        text, path = file.read_text(), file.parent.relative_to("proofs")
        own = re.search(r"(?m)^(?:abbrev )?(?:pub )?[^\s:()]+ : (?!goal\.)", text)
        paths = None if own or "unfolding" in text or "abbrev pub" in text or text.count("\n") > 16 else lemmas_of(text, crate)
        at = paths and function_of(path)
        if at:
            answers[file] = (text, path, paths)
            sources[at[0]] = at[0].read_text()
    live = set(answers)
    while live:
        for file, text in sources.items():
            file.write_text(text)
        for file, (text, path, paths) in answers.items():
            if file not in live:
                file.parent.mkdir(parents=True, exist_ok=True)
                file.write_text(text)
                continue
            source_file, at, indent = function_of(path)
            whole = source_file.read_text()
            before, after = whole[:at], whole[at:]
            had = re.search(r"(?m)^" + indent + r"#\[tactic\(auto(?:, using\(([^)]*)\))?((?:, unfolding\([^)]*\))?)\)\]\n\Z", before)
            names = [*(it.strip() for it in (had.group(1) or "").split(",") if it.strip())] if had else []
            names += [it for it in paths if it not in names]
            line = f"{indent}#[tactic(auto, using({', '.join(names)}){had.group(2) if had else ''})]\n"
            source_file.write_text((before[: had.start()] if had else before) + line + after)
            if file.exists():
                file.unlink()
        passes, said = check()
        if passes:
            break
        bad = set(re.findall(r"\./proofs/(\S+?)/Answers\.antt", said))
        refused = {file for file in live if str(answers[file][1]) in bad}
        print(f"using: {len(live)} tried, {len(refused)} refused, {time.time() - began:.0f} s", flush=True)
        live = live - refused if refused else set()
    for file, (text, _, _) in answers.items():
        if file not in live and not file.exists():
            file.parent.mkdir(parents=True, exist_ok=True)
            file.write_text(text)
    if not live:
        for file, text in sources.items():
            file.write_text(text)
    for folder in sorted((it for it in pathlib.Path("proofs").rglob("*") if it.is_dir()), reverse=True):
        if not any(folder.iterdir()):
            folder.rmdir()
    print(f"using: {len(live)} files fewer")


WAYS = {
    "grind": lambda: attempt("grind", grind_sites),
    "rw": lambda: attempt("rw", lambda text: expression_sites(text, chain_texts)),
    "subst": lambda: attempt("subst", lambda text: expression_sites(text, subst_texts)),
    "eta": lambda: attempt("eta", eta_sites),
    "aps": lambda: attempt("aps", lambda text: expression_sites(text, through_texts)),
    "parts": lambda: attempt("parts", part_sites),
    "whole": lambda: attempt("whole", whole_sites),
    "names": lambda: attempt("names", name_sites),
    "using": using,
}


def main():
    asked = argparse.ArgumentParser(usage="shorten.py [--way WAY]..")
    asked.add_argument("--way", action="append", choices=WAYS)
    count = lambda: sum(file.read_text().count("\n") for file in proofs())
    before = count()
    for way in asked.parse_args().way or WAYS:
        WAYS[way]()
    print(f"{before} -> {count()} lines of proofs and laws")


if __name__ == "__main__":
    main()
