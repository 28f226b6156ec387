#!/usr/bin/env python3
"""Lists functions of src/ that are alike but for names with digits, types, numbers and constants: twins.

    python3 tools/twins.py        the groups, a line for each, and how many functions they hold
"""
import collections
import glob
import re

TYPES = r"\b(u8|u16|u32|u64|usize|i8|i16|i32|isize|f64|bool)\b"


def functions(path):
    """Name and text of each function, by its indentation."""
    lines = open(path, encoding="utf-8").read().split("\n")
    for i, line in enumerate(lines):
        m = re.match(r"^( *)(?:pub )?fn (\w+)", line)
        if m:
            body = next((l for l in lines[i:] if l.rstrip().endswith(("{", ";"))), ";")
            close = m.group(1) + "}"
            end = next((j for j in range(i, len(lines)) if lines[j] == close), None)
            if body.endswith("{") and end is not None:  # a trait's method may have no body
                yield m.group(2), "\n".join(lines[i : end + 1])


def shape(text):
    """The body with names, types and numbers left out."""
    body = text[text.index("{\n") if "{\n" in text else 0 :]
    body = re.sub(r"ensures .*?\n(?=\s*\{)", "", body, flags=re.S)
    body = re.sub(TYPES, "T", body)
    body = re.sub(r"\b0x[0-9A-Fa-f_]+\b|\b\d[\d_]*\b", "0", body)
    body = re.sub(r"\b\w*\d\w*\b", "X", body)
    body = re.sub(r"\b[A-Z]\w*\b", "C", body)
    return re.sub(r"\s+", " ", re.sub(r"\.\w+", ".f", body))


groups = collections.defaultdict(list)
for path in sorted(glob.glob("crates/*/src/*.rt")):
    for name, text in functions(path):
        if text.count("\n") > 4:
            groups[shape(text)].append(path.split("/")[1] + "::" + name)
twins = [g for g in groups.values() if len(g) > 1]
for g in twins:
    print(" ".join(g))
print(sum(map(len, twins)), "functions in", len(twins), "groups")
