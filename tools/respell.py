#!/usr/bin/env python3
"""Spells the definitions and lemmas of this repository in snake case, in specs/, proofs/, contracts and must-fail edits.

Run once, at the top of the repository, after the port to the newer Rattle. Prints what it renamed and which names would fall together.
Types and modules keep their camel case, functions of src/ their names, and each name that Rattle makes for a goal stays as it is.
"""
import collections
import glob
import re
import sys

DELIMITERS = r'\s(){}.;,@"«»:'
NAME = rf"[^{DELIMITERS}]+"
DECLARED = re.compile(
    rf"^( *)((?:(?:pub|abbrev|unfoldable|record|data|syntax) +)*)((?:{NAME} +)*{NAME})((?: \{{[^{{}}\n]*\}}| \([^()\n]*\))*) :( |$)"
)
TOKEN = re.compile(rf"(?<![^{DELIMITERS}'`])({NAME})")
# A kind's identifier after a word, as in `in1F`: the functions of src/ are called `in_1f`.
KIND = re.compile(r"^(in|latest|k|ok|of|free|judged|length|long|ranged|row|store|test|layout|count|chosen)-?([0-9A-F]{2})$")
SPECIAL = {"So-far": "SoFar"}


def snake(name):
    if name in SPECIAL:
        return SPECIAL[name]
    if not re.fullmatch(r"[A-Za-z][\w'-]*", name):
        return name
    kind = KIND.match(name)
    if kind and not kind[2].isdigit():
        return f"{kind[1]}_{kind[2].lower()}"
    if kind and kind[2].isdigit() and kind[1] in ("in", "latest", "k", "ok", "chosen"):
        return f"{kind[1]}_{kind[2]}"
    if name[0].isupper() and "-" not in name:
        return name
    words = re.sub(r"(?<=[a-z0-9])[A-Z]", lambda m: "_" + m[0], name)
    return words.replace("-", "_").lower()


def declared(path):
    for line in open(path):
        if line.lstrip().startswith(("--", "let ")):
            continue
        found = DECLARED.match(line)
        if found:
            yield from (n for n in found[3].split() if n not in ("let", "in"))


def foreign(text):
    """The names that a file imports from a library."""
    names = set()
    for path, items in re.findall(r"^(?:ghost )?use ([^\s{]+?)\.?\{([^}]*)\}", text, re.M):
        own = path.startswith("Rattle.") and path.split(".")[1] in CRATES
        if not own:
            names.update(re.split(r"[,\s]+", items.strip()))
    return names


CRATES = {p.split("/")[1] for p in glob.glob("crates/*/")}
SPECS = sorted(glob.glob("crates/*/specs/*.antt") + glob.glob("crates/*/proofs/*.antt"))
table = {}
where = collections.defaultdict(set)
for path in SPECS:
    for name in declared(path):
        where[name].add(path)
        if snake(name) != name:
            table[name] = snake(name)
back = collections.defaultdict(set)
for old, new in table.items():
    back[new].add(old)
# Two names that fall together: the lemma gets `_lem`.
for new, olds in sorted(back.items()):
    if new in where:
        olds.add(new)
    if len(olds) > 1:
        lemmas = [o for o in olds if all("/proofs/" in p for p in where[o])]
        if len(lemmas) == len(olds):
            lemmas = [o for o in olds if "-" in o]
        if len(olds) - len(lemmas) != 1:
            sys.exit(f"together: {new} {olds}")
        for lemma in lemmas:
            table[lemma] = new + "_lem"
            print("together:", lemma, "is", table[lemma], "since", *(o for o in olds if o != lemma), "is", new)

if "--dry" in sys.argv:
    sys.exit()
paths = glob.glob("crates/**/*.antt", recursive=True) + glob.glob("crates/**/*.rt", recursive=True) + glob.glob("crates/*/must-fail/*.edit")
for path in sorted(paths):
    if "/out/" in path:
        continue
    text = open(path).read()
    skip = foreign(text)

    def turn(match):
        name = match[1]
        if name in skip and name in table:
            print("left:", path, name)
            return name
        return table.get(name, name)

    lines = []
    for line in text.split("\n"):
        code, quote = line, ""
        if path.endswith(".rt") and '"' in line:
            lines.append(line)
            continue
        lines.append(TOKEN.sub(turn, line))
    new = "\n".join(lines)
    if new != text:
        open(path, "w").write(new)
for old, new in sorted(table.items()):
    print("renamed:", old, new)
