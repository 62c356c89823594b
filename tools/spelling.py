#!/usr/bin/env python3
"""Spells this repository's own definitions and lemmas as today's Rattle does: words in snake case, types in camel case.

usage: python3 tools/spelling.py        at the top of the repository, once, right after the kit's port.py

Rewrites names with a dash in crates/*/{specs,proofs} and in the ghost parts of crates/*/src. A name that a file imports
from std keeps its spelling there; comments and strings are left alone. Names that the checker makes in proofs/F (goals,
steps of the code) get its present form. It prints names that fall together with another of the same file.
"""
import os
import re
import subprocess
import sys

TOKEN = re.compile(r"(?<![\w'-])[A-Za-z_][\w']*(?:-[\w']+)+")
STD = re.compile(r"use Rattle\.std\.[\w.]*\{([^}]*)\}")

# what the checker makes: parts are joined by a dash, a name of the source or a word of the checker's has underscores
MADE = {
    "advance-state": "advance-state",
    "from-residual": "from_residual",
    "header-header": "header-header",
    "held-add": "held-add",
    "if-not-legal-length": "if-not-legal_length",
    "invariant-of-result": "invariant_of-result",
    "max-fall": "max-fall",
    "moved-high": "moved-high",
    "moved-low": "moved-low",
    "read-map-first": "read_map-first",
    "read-map-second": "read_map-second",
    "returns-else-i-bytes": "returns-else-i-bytes",
    "returns-then-block-i": "returns-then-block-i",
    "returns-after-loop-i": "returns-after-loop-i",
    "sample-index": "sample-index",
    "slice-bounds-run-section-end": "slice_bounds-run_section-end",
    "test-rest-requires": "test_rest-requires",
    "type-inv": "type_inv",
    "whole-blocks-whole": "whole_blocks-whole",
}
OTHER = {"leZ-true": "le_z_true", "true-leZ": "true_le_z"}


def snake(name):
    return name.replace("-", "_")


def made(name):
    """The present form of a name that the checker makes, or None."""
    if name in MADE:
        return MADE[name]
    m = re.fullmatch(r"(returns-)?in-(ok|err)-(.+)", name)
    if m:
        return f"{m.group(1) or ''}in_{m.group(2)}-{snake(m.group(3))}"
    m = re.fullmatch(r"overflow-(add|sub|mul|cast)-(\w+)(-in-loop-\w+)?", name)
    if m:
        return f"overflow_{m.group(1)}-{m.group(2)}{m.group(3) or ''}"
    if re.fullmatch(r"(invariant-|In-)?loop-\w+(-2)?(-init|-preserved|-test|-smaller)?|In-loop-\w+|field-\d|in-[A-Z]\w*", name):
        return name
    return None


def spelled(name, in_function):
    if in_function and made(name) is not None:
        return made(name)
    if name in OTHER:
        return OTHER[name]
    if name[0].isupper():
        return "".join(part[0].upper() + part[1:] for part in name.split("-"))
    return snake(name)


def parts(line, comment):
    """The line as (text, is_code): comments and strings are no code."""
    out, at = [], 0
    for m in re.finditer(r'"(?:[^"\\]|\\.)*"|' + comment + r".*", line):
        out += [(line[at:m.start()], True), (m.group(0), False)]
        at = m.end()
    return out + [(line[at:], True)]


def turn(path):
    text = open(path, encoding="utf-8").read()
    std = {n.strip().split(" as ")[0] for m in STD.finditer(text) for n in m.group(1).split(",")}
    in_function = re.search(r"/proofs/.+/(Answers|Invariants|Proof)\.antt$", path) is not None
    comment = "//" if path.endswith(".rt") else "(?<![^\\s({])--(?=\\s|$)"
    plain = set(re.findall(r"(?<![\w'-])[A-Za-z_][\w']*(?![\w'-])", text))
    renamed = {}

    def put(m):
        name = m.group(0)
        if name in std:
            return name
        to = spelled(name, in_function)
        if to != name:
            renamed.setdefault(to, set()).add(name)
        return to

    lines = ["".join(TOKEN.sub(put, t) if code else t for t, code in parts(line, comment)) for line in text.split("\n")]
    for to, names in sorted(renamed.items()):
        if len(names) > 1 or to in plain:
            print(f"together: {path}: {', '.join(sorted(names))} as {to}")
    new = "\n".join(lines)
    if new != text:
        open(path, "w", encoding="utf-8").write(new)
    return sum(len(v) for v in renamed.values())


def main():
    files = subprocess.run(["git", "ls-files", "-co", "--exclude-standard", "crates"], capture_output=True, text=True, check=True).stdout.split("\n")
    paths = [f for f in files if f.endswith((".rt", ".antt")) and os.path.isfile(f)]
    print(f"spelling: {sum(turn(p) for p in paths)} names in {len(paths)} files")


if __name__ == "__main__":
    sys.exit(main())
