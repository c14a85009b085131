#!/usr/bin/env python3
"""Places of an older way of writing in crates/*/src, by the points of docs/DESIGN-PASS.md.

`tools/places.py` prints a count for each point, `tools/places.py 3` the places of point 3 too; `--root DIR` counts in another checkout."""
import collections, glob, os, re, sys

words = sys.argv[1:]
root = os.path.join(os.path.dirname(os.path.abspath(__file__)), "..")
if "--root" in words:
    at = words.index("--root")
    root = words[at + 1]
    del words[at:at + 2]
text = {os.path.relpath(p, root): re.sub(r"//[^\n]*", "", open(p).read()) for p in sorted(glob.glob(os.path.join(root, "crates/*/src/*.rt")))}
functions = []  # path, line, name, head (signature and clauses), body
for path, src in text.items():
    for m in re.finditer(r"^( *)(?:pub(?:\([a-z]+\))? )?(?:const )?(?:extern \"C\" )?fn (\w+)", src, re.M):
        indent = m.group(1)
        end = src.find("\n" + indent + "}\n", m.start())
        whole = src[m.start():end + len(indent) + 2]
        brace = re.search(r"\n" + indent + r"\{\n|[^{]\{\n", whole)
        cut = brace.start() if brace else len(whole)
        functions.append((path, src.count("\n", 0, m.start()) + 1, m.group(2), whole[:cut], whole[cut:]))


def lines(pattern):
    for path, src in text.items():
        for n, line in enumerate(src.split("\n"), 1):
            code = line.split("//")[0]
            if re.search(pattern, code):
                yield f"{path}:{n}: {line.strip()}"


def enums():
    "own enums with a variant for 'nothing' or 'refused', and structs of a value beside an answer, a number or a flag"
    for path, src in text.items():
        for m in re.finditer(r"enum (\w+)[^{]*\{(.*?)\n\}", src, re.S):
            if re.search(r"^\s*(Refused\(|Nothing,|Other,|Unassigned,|Unreadable,)", m.group(2), re.M):
                yield f"{path}: enum {m.group(1)}"
        for m in re.finditer(r"struct (\w+)[^{;]*\{(.*?)\n\}", src, re.S):
            if re.search(r"^\s*(pub )?(answer|number|due|struck): ", m.group(2), re.M):
                yield f"{path}: struct {m.group(1)}"


def codes():
    "functions that answer a refusal, a tier or another kind by a number"
    for path, line, name, head, body in functions:
        if re.search(r"-> (usize|u32)", head) and re.search(r"^(judge_|refuse_|number|tier_|group_of|plain_number|strike_kind|entry_kind|goes_to_local)", name):
            yield f"{path}:{line}: {name}"
        if re.search(r"\b(number|tier|op|kind|buffer|group|old): (usize|u32)\b", head):
            yield f"{path}:{line}: {name} takes a number for a kind"


def twins():
    "functions of one crate, or of one name, whose bodies differ only in types, literals or one word"
    shape = collections.defaultdict(list)
    for path, line, name, head, body in functions:
        if path.split("/")[1] in ("store", "bench_calls"):
            continue
        flat = re.sub(r"//[^\n]*", "", body)
        flat = re.sub(r"\b(u8|u32|u64|usize)\b", "T", re.sub(r"b?\"[^\"]*\"|\b0x[0-9a-f_]+\b|\b\d+(?:u8|u32|u64|usize)?\b", "N", flat))
        seen = {}
        flat = re.sub(r"\b[a-z_]\w*\b", lambda w: w.group(0) if w.group(0) in ("if", "else", "let", "mut", "while", "for", "in", "return", "match", "true", "false", "as", "loop", "break", "continue") else seen.setdefault(w.group(0), f"v{len(seen)}"), flat)
        flat = re.sub(r"\s+", " ", flat)
        if len(flat) > 40:
            shape[flat].append(f"{path}:{line}: {name}")
    for places in shape.values():
        if len(places) > 1:
            yield "; ".join(places)


def converted():
    "conversions, comparisons and printing written by hand"
    for path, line, name, head, body in functions:
        if re.search(r"^(number|number_of|plain_number|tier_from|refusal_of|pattern|float_bits|word_bits|bit|flag|wide|truth|low|least|live|digit|word|byte)$", name):
            yield f"{path}:{line}: {name}"


def together():
    "groups of four or more parameters that three or more functions take in one run"
    runs = collections.Counter()
    where = collections.defaultdict(set)
    for path, line, name, head, body in functions:
        sig = head[:re.search(r"\)\s*(->|\n|$)", head).start()] if re.search(r"\)\s*(->|\n|$)", head) else head
        params = [re.sub(r"&(?:'a )?(?:mut )?", "&", p.strip()) for p in re.findall(r"(\w+: [^,\n]+)", sig.split("(", 1)[1])]
        for size in range(4, len(params) + 1):
            for i in range(len(params) - size + 1):
                where[tuple(params[i:i + size])].add(f"{path}:{line}: {name}")
    groups = [(g, w) for g, w in where.items() if len(w) >= 3]
    taken = set()
    for path, line, name, head, body in functions:
        if any(f"{path}:{line}: {name}" in w for g, w in groups):
            yield f"{path}:{line}: {name}"


def facts():
    "facts in the `requires` of three or more functions"
    where = collections.defaultdict(set)
    for path, line, name, head, body in functions:
        for clause in re.findall(r"requires (?:\w+ )?\{(.*?)\}\s*\n", head + "\n", re.S):
            depth, part = 0, ""
            parts = []
            for ch in clause:
                depth += ch == "("
                depth -= ch == ")"
                if ch == "×" and depth == 0:
                    parts.append(part)
                    part = ""
                else:
                    part += ch
            parts.append(part)
            for p in parts:
                where[re.sub(r"\s+", " ", p).strip().strip("()").replace(".old", ".now")].add(f"{path}:{line}: {name}")
    for fact, places in sorted(where.items()):
        if len(places) >= 3:
            yield f"{fact}   ({len(places)}: {', '.join(sorted(x.split(': ')[-1] for x in places))})"


def lengths():
    "buffers with a length beside them: a number that a `requires` holds at most a list's length"
    for path, line, name, head, body in functions:
        for n, xs in re.findall(r"\(?\b(n|m|k|used|assigned|to|listed) ≤ length (\w+)\.(?:now|old)", head):
            yield f"{path}:{line}: {name}: {xs} with {n}"


def searches():
    "lists searched by halving"
    return lines(r"/ 2;\s*$|\(high - low\) / 2")


def switches():
    "a switch on a number that stands for a step"
    for path, line, name, head, body in functions:
        for m in re.finditer(r"match (op|buffer|at|place|number|group|kind) \{", body):
            yield f"{path}:{line}: {name}: {m.group(0)}"
        if len(re.findall(r"\bif (\w+) == \d+ \{", body)) >= 3:
            yield f"{path}:{line}: {name}: if .. == number"


def spelled():
    "structs built anew field by field from a value of the same type"
    for path, line, name, head, body in functions:
        for m in re.finditer(r"\b([A-Z]\w+) \{((?:\s*\w+: [^,{}]+,)+)\s*\}", body):
            fields = re.findall(r"(\w+): (\w+)\.(\w+)", m.group(2))
            if sum(a == c for a, b, c in fields) >= 3:
                yield f"{path}:{line}: {name}: {m.group(1)}"


points = [
    ("1a", enums), ("1b", codes), ("2", twins), ("3", lambda: lines(r"\b(while|loop)\b")), ("4", converted), ("5a", facts), ("5b", together), ("5c", spelled),
    ("6a", lengths), ("6b", searches), ("7", switches),
]
for name, find in points:
    found = sorted(set(find()))
    print(f"{name}: {len(found)}")
    if words and name.startswith(words[0]):
        for place in found:
            print("    " + place)
