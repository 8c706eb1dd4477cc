#!/usr/bin/env python3
"""new: begins a recipe of CONTRIBUTING.md, by copying what the code has for one like it.

  bench/new.py layer NAME [MODEL]      a layer that decides by a rule, like `fuse`, or like MODEL
  bench/new.py line NAME [MODEL]       a line of a script, like `turn`
  bench/new.py command NAME [MODEL]    a command, like `status`
  bench/new.py refusal NAME [MODEL]    a refusal, like `NoThread`

Each equation, arm, variant and constant that names the model is copied behind it under the new name, in the files of the recipe. NAME is one word in lower case, such as
`drain`, and a refusal's is as `NoThread` is. Then it prints each copy with its place, because what a copy says is still what the model means; each list of alternatives that
names the model, where the new name may belong; and the recipe, whose other steps are left. It changes files of this checkout, so begin with a clean one: `git diff` shows it.
"""
import glob, os, re, sys

ROOT = os.path.dirname(os.path.dirname(os.path.abspath(__file__)))
RECIPES = {
    "layer": ("Add a layer", "fuse", ["crates/fault_layers/src/fault_rule.rt", "crates/fault_layers/specs/Verdicts.antt", "crates/layer_table/src/layer_spec.rt",
                                      "crates/layer_table/specs/TableLines.antt", "crates/dmlw_commands/src/explain/layers.rt", "crates/device_tests/src/table/plain.rt"]),
    "line": ("Add a script line", "turn", ["crates/dmlw_script/src/command.rt", "crates/dmlw_script/src/line.rt", "crates/dmlw_script/src/steps.rt", "crates/dmlw_script/src/draft.rt",
                                           "crates/dmlw_script/specs/Fields.antt", "crates/dmlw_script/specs/Plans.antt", "crates/dmlw_script/specs/inside/LineParser.antt",
                                           "crates/dmlw_script/proofs/LineParserLaws.antt", "crates/dmlw_script/proofs/RecorderLaws.antt", "crates/script_runner/src/running.rt",
                                           "crates/script_runner/specs/Lines.antt", "crates/script_runner/specs/Runs.antt", "crates/script_runner/proofs/Logs.antt",
                                           "crates/script_runner/proofs/LawfulRuns.antt"]),
    "command": ("Add a command", "status", ["crates/dmlw/src/program.rt", "crates/dmlw/src/task.rt", "crates/dmlw/src/executing.rt", "crates/dmlw/src/laws.rt",
                                            "crates/dmlw/specs/Commands.antt", "crates/dmlw_commands/src/lib.rt", "crates/dmlw_commands/src/explain.rt"]),
    "refusal": ("Add a refusal", "NoThread", ["crates/refusals/src/refusal.rt", "crates/refusals/specs/Table.antt", "crates/dmlw_commands/src/explain/advice.rt"]),
}


def camel(word):
    return "".join(part[:1].upper() + part[1:] for part in word.split("_"))


def spelled(word):
    """A word as a value, a type and a constant have it."""
    return word, camel(word), word.upper()


# Where the words of a recipe's model mean other things too: the forms in which they are the model, with `model` and `Model` for its words.
ONLY = {
    "turn": ["steps.Model", "Step::Model", "\"model\"", "    Model,", "GivesModel", "fn model"],
    "status": ["names.Model", "Name::Model", "tasks.Model", "Task::Model", "\"model\"", "    Model,", "    Model {", "model_task", "pub mod model", "plain_words_model", "model::model"],
}


def named(line, model):
    """Whether the code of a line names the model."""
    code = re.sub(r"(//|--).*", "", line)
    if model in ONLY:
        return any(it.replace("Model", camel(model)).replace("model", model) in code for it in ONLY[model])
    return any(re.search(rf"(?<![A-Za-z]){re.escape(it)}(?![a-z])", code) for it in spelled(model))


def renamed(text, model, name):
    for old, new in zip(spelled(model), spelled(name)):
        text = re.sub(rf"(?<![A-Za-z]){re.escape(old)}(?![a-z])", new, text)
    return text


def own_definition(lines, at, model):
    """The line behind the definition of a name of the model's own that begins at a line, with its equations, or None."""
    if found := re.match(r"( *)(?:pub(?:\([a-z]+\))? )?(fn \w+)", lines[at]):
        ends = (it + 1 for it in range(at, len(lines)) if lines[it] == f"{found[1]}}}" or not lines[it].strip())
        return next(ends, None) if named(found[2], model) else None
    found = re.match(r"(?:(?:abbrev|unfoldable|record|data) )?(?:pub )?([\w\-]+) :", lines[at])
    if not found or not named(found[1], model):
        return None
    return next((it for it in range(at, len(lines)) if not lines[it].strip()), len(lines))


def piece_end(lines, at, is_rust):
    """The line behind the piece that begins at a line: an equation with its deeper lines, or an arm, a variant or a constant up to its last bracket."""
    depth = len(lines[at]) - len(lines[at].lstrip())
    end = at + 1
    if is_rust and not lines[at].lstrip().startswith("}"):
        opened = sum(lines[at].count(it) for it in "([{") - sum(lines[at].count(it) for it in ")]}")
        while opened > 0 or not re.search(r"[,;}]\s*$", lines[end - 1]):
            opened += sum(lines[end].count(it) for it in "([{") - sum(lines[end].count(it) for it in ")]}")
            end += 1
        return end
    while end < len(lines) and lines[end].strip() and len(lines[end]) - len(lines[end].lstrip()) > depth:
        end += 1
    return end


def begins_piece(line, is_rust):
    """Whether a line begins a piece that can stand twice: not a `use`, a signature, or the middle of an expression."""
    text = line.strip()
    if is_rust:
        return bool(re.match(r"(Some\()?[\w:]+(\(|::|\s*\{|,|\s*=>)|const |\} else if |pub mod |mod |[\w:]+ \{ \.\.", text)) and not text.startswith(("use ", "ghost use ", "fn ", "pub fn "))
    return bool(re.match(r"[\w\-]+ .*=( |$)|\| ", text)) and not line.startswith(("use ", "  pub "))


def copy_into(path, model, name):
    """Copies the pieces of a file, and returns the places of the copies, and those of lists that name the model."""
    is_rust = path.endswith(".rt")
    with open(f"{ROOT}/{path}", encoding="utf-8") as file:
        lines = file.read().split("\n")
    made, copies, lists, at = [], [], [], 0
    while at < len(lines):
        if not named(lines[at], model):
            made.append(lines[at])
            at += 1
        elif end := own_definition(lines, at, model):
            made += [*lines[at:end], ""]
            copies.append(len(made) + 1)
            made += renamed("\n".join(lines[at:end]), model, name).split("\n")
            at = end
        elif " | " in lines[at] or not begins_piece(lines[at], is_rust) or not is_rust and not named(lines[at].split(" = ")[0], model):
            made.append(lines[at])
            lists.append(len(made))
            at += 1
        else:
            end = piece_end(lines, at, is_rust)
            made += lines[at:end]
            copies.append(len(made) + 1)
            made += renamed("\n".join(lines[at:end]), model, name).split("\n")
            at = end
    with open(f"{ROOT}/{path}", "w", encoding="utf-8") as file:
        file.write("\n".join(made))
    return [(it, made[it - 1].strip()) for it in copies], [(it, made[it - 1].strip()) for it in lists]


def recipe(title):
    with open(f"{ROOT}/CONTRIBUTING.md", encoding="utf-8") as file:
        return file.read().split(f"\n## {title}\n")[1].split("\n## ")[0].strip()


def main():
    if len(sys.argv) not in (3, 4) or sys.argv[1] not in RECIPES or not sys.argv[2].isidentifier():
        sys.exit(__doc__)
    title, model, files = RECIPES[sys.argv[1]]
    name, model = sys.argv[2], sys.argv[3] if len(sys.argv) == 4 else model
    for path in files:
        copies, lists = copy_into(path, model, name)
        for line, text in copies:
            print(f"{path}:{line}: a copy of `{model}`, to be changed: {text[:80]}")
        for line, text in lists:
            print(f"{path}:{line}: names `{model}`; does `{name}` belong here? {text[:80]}")
    print(f"\n{recipe(title)}")


if __name__ == "__main__":
    main()
