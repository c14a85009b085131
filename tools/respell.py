#!/usr/bin/env python3
"""Spells the repository's own definitions and lemmas in snake case, as the library does: camel case and dashes become underscores, a lemma that would have a definition's name gets `_lem`.

usage: python3 tools/respell.py        at the top, once, right after the port script of the newer Rattle

Functions of src/, exported names, strings, inputs and outputs keep their names. Types and modules keep camel case. Answer files of one function keep the names that Rattle makes.
"""

import collections
import os
import re
import sys

sys.dont_write_bytecode = True

ROOT = os.path.realpath(os.path.join(os.path.dirname(os.path.realpath(__file__)), ".."))
if len(sys.argv) > 1:
    ROOT = os.path.realpath(sys.argv[1])
STOP = r"\s(){}\[\].;,@\"«»⌜⌝"
NAME = rf"[^{STOP}]+"
TOKEN = re.compile(rf"(?P<path>(?:{NAME}\.)*)(?P<name>{NAME})")
DECLARED = re.compile(
    r"(?m)^[ \t]*(?:(?:pub|abbrev|unfoldable|opaque|instance|record|data|field)\s+)*"
    rf"({NAME})(?: \{{[^{{}}\n]*\}})* :(?= |$)"
)
USE = re.compile(r"(?m)^(?:ghost )?use ([^\s;{]+)(\{[^}]*\})?")
LIBRARY = re.compile(r"(native|mathlib|lib|borrow|Prim|seplogic|denote|Rattle\.(std|core)\b|Rattle\.std_\w+)")
OF_FUNCTION = re.compile(r"/proofs/(?:[^/]+/)+(Proof|Answers|Invariants)\.antt$")
# names that the rule does not reach
OTHERS = {"Held-from": "HeldFrom", "X-is": "x_is"}


def files(*endings):
    for folder, dirs, names in os.walk(os.path.join(ROOT, "crates")):
        dirs[:] = sorted(d for d in dirs if d != "out")
        for f in sorted(names):
            if f.endswith(endings):
                yield os.path.join(folder, f)


def read(path):
    with open(path, encoding="utf-8") as f:
        return f.read()


def code(text):
    return re.sub(r"(?m)--(?=\s|$).*$", "", text)


def snake(name):
    words = re.sub(r"(?<=[a-z0-9])[A-Z]", lambda m: "_" + m[0].lower(), name)
    return words.replace("-", "_")


def is_word(name):
    return bool(re.match(r"[a-z_]", name))


def names():
    """Returns the table: the old name of each definition and lemma that changes, and the new one."""
    stated, proved = set(), set()
    for path in files(".antt"):
        if OF_FUNCTION.search(path):
            continue
        into = stated if "/specs/" in path else proved
        into.update(n for n in DECLARED.findall(code(read(path))) if is_word(n))
    table = {}
    for name in stated:
        if snake(name) != name:
            table[name] = snake(name)
    taken = {table.get(n, n) for n in stated}
    for name in sorted(proved - stated, key=lambda n: (snake(n) == n, n)):
        new = snake(name)
        while new in taken:
            new += "_lem"
        # a definition that stands in proofs/ goes before a lemma: it is in camel case
        if new != name:
            table[name] = new
        taken.add(new)
    return table | OTHERS


def imported(text):
    """Returns the names that a file has from a library."""
    found = set()
    for head, items in USE.findall(text):
        if LIBRARY.match(head):
            found.update(re.findall(NAME, items or head.split(".")[-1]))
    return found


def turned(text, table, keep, labels=False):
    """Returns the text with the table's names. Behind a dot in the proof of one function stands a label that Rattle makes, or a field, and never a lemma."""

    def one(m):
        path, name = m["path"], m["name"]
        if labels and path and table.get(name, "").endswith("_lem"):
            return path + snake(name)
        if name in keep and not path:
            return m[0]
        if LIBRARY.match(path):
            return m[0]
        steps = [table.get(s, s) if i or s not in keep else s for i, s in enumerate(path.split(".")[:-1])]
        return ".".join(steps + [table.get(name, name)])

    return TOKEN.sub(one, text)


# a name of a definition in running text: in camel case
def in_words(text, table):
    return re.sub(r"(?<![\w.-])[a-z]+[A-Z]\w*(?![\w-])", lambda m: table.get(m[0], m[0]), text)


def main():
    table = names()
    for path in files(".antt"):
        text = read(path)
        keep = imported(text)
        labels = bool(OF_FUNCTION.search(path))
        lines = []
        for line in text.splitlines(keepends=True):
            m = re.search(r"(^|\s)--(?=\s|$)", line)
            at = m.start() if m else len(line)
            lines.append(turned(line[:at], table, keep, labels) + in_words(line[at:], table))
        write(path, text, "".join(lines))
    # a name of the source has no capital and no dash
    ghost = {old: new for old, new in table.items() if snake(old) != old}
    for path in files(".rt"):
        text = read(path)
        keep = imported(text)
        parts = re.split(r'("(?:[^"\\\n]|\\.)*"|//[^\n]*)', text)
        out = [p if i % 2 and p.startswith('"') else in_words(p, ghost) if i % 2 else turned(p, ghost, keep) for i, p in enumerate(parts)]
        write(path, text, "".join(out))
    for path in files(".edit"):
        text = read(path)
        write(path, text, re.sub(r"(?m)^((?:old|new): )(.*)$", lambda m: m[1] + turned(m[2], ghost, set()), text))
    pages = [os.path.join(ROOT, "README.md")]
    for folder, dirs, found in os.walk(os.path.join(ROOT, "docs")):
        dirs[:] = [d for d in dirs if d != "src"]
        pages += [os.path.join(folder, f) for f in found if f.endswith(".md") and not f.startswith(("PORT", "01-", "02-"))]
    for path in sorted(pages):
        text = read(path)
        write(path, text, re.sub(r"`[^`\n]+`", lambda m: in_words(m[0], table), text))
    print(f"{len(table)} names")


def write(path, old, new):
    if new != old:
        with open(path, "w", encoding="utf-8") as f:
            f.write(new)


if __name__ == "__main__":
    main()
