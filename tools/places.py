#!/usr/bin/env python3
"""Prints the places in crates/*/src that are written as the older language had it, a group for each point of docs/DESIGN-PASS.md.

usage: places.py [FOLDER]     FOLDER holds crates/; none: this one
"""
import collections
import glob
import os
import re
import sys

OPTION_LIKE = r"^\s+(Misplaced|Outermost|End|Stop|Broken|None|Nothing|Missing|Unknown|Other),\s*$"
RULE_NUMBER = r"^pub const [A-Z_]+: u8 = \d+;"
LETTER = r"letter as char|letter: u8,|number: u8,|b'[A-Z+*<=-]', 0|outcome\w*\(.*-> u8$"
FLAG = r"\((Ending|bool), |, bool\)"
INDEX = r"^\s*for [a-z]\w* in \(?[\w.]*\.\.|^\s*while .* < "
WALK = r"^\s*while let "
BY_HAND = (
    r"^\s*(pub(\(crate\))? )?fn (blank|outermost|tell|kind_of|setting_of|outcome_of|digit|write_bytes|bytes|plain|jump|new)\(\)? ?"
    r"|^const [A-Z_]+: [A-Z]\w+ = |^pub\(crate\) const [A-Z_]+: [A-Z]\w+ = "
    r"|^\s*fn (tell|kind_of|setting_of|outcome_of|digit|write_bytes|bytes|plain|jump)\b"
    r"|^\s*pub\(crate\) fn (bytes|plain|jump)\("
    r"|\] as i32|\)\? as i32"
)
DYNAMIC = r"\bdyn\b|: fn\(|\[fn\("


def sources(folder):
    for path in sorted(glob.glob(os.path.join(folder, "crates/*/src/**/*.rt"), recursive=True)):
        with open(path, encoding="utf-8") as f:
            yield os.path.relpath(path, os.path.join(folder, "crates")), f.read()


def lines_like(text, pattern):
    return [(k, line.strip()) for k, line in enumerate(text.split("\n"), 1) if re.search(pattern, line)]


def ranges(text):
    """Each `for` over a range of numbers and each `while` that counts: its line, its text, and whether its body indexes with the number."""
    lines = text.split("\n")
    for k, line in enumerate(lines):
        if not re.search(INDEX, line):
            continue
        name = re.match(r"\s*(?:for|while) (\w+)", line)[1]
        indent = len(line) - len(line.lstrip())
        body = []
        for later in lines[k + 1:]:
            if later.strip() and len(later) - len(later.lstrip()) <= indent:
                break
            body.append(later)
        yield k + 1, line.strip(), any(re.search(r"\[[^\];]*\b" + name + r"\b", t) for t in body)


def functions(text):
    """Each function's line, name, and parameters as texts."""
    for m in re.finditer(r"^\s*(?:pub(?:\(crate\))? )?(?:final )?fn (\w+)(?:<[^(]*>)?\(([^{]*?)\)(?: ->|\n|$)", text, re.M):
        parts = [p.strip() for p in re.sub(r"\s+", " ", m.group(2)).split(",") if p.strip()]
        yield text.count("\n", 0, m.start(1)) + 1, m.group(1), parts


def structs(text):
    for m in re.finditer(r"struct (\w+)(?:<[^{]*>)? \{(.*?)\n\}", text, re.S):
        yield text.count("\n", 0, m.start()) + 1, m.group(1), m.group(2)


def show(title, places):
    print(f"{title}: {len(places)}")
    for path, line, what in places:
        print(f"    {path}:{line}: {what}")


def main():
    folder = sys.argv[1] if len(sys.argv) > 1 else "."
    files = list(sources(folder))

    def grep(pattern, tests=True):
        return [(p, k, s) for p, t in files for k, s in lines_like(t, pattern) if tests or "_tests/" not in p]

    show("1 variants for nothing or a failure", grep(OPTION_LIKE))
    show("1 rules as numbers", grep(RULE_NUMBER))
    show("1 kinds as letters or numbers", grep(LETTER, tests=False))
    show("1 a flag with a value beside it", grep(FLAG, tests=False))
    loops = [(p, k, s, indexes) for p, t in files for k, s, indexes in ranges(t)]
    show("3 loops that count an index", [(p, k, s) for p, k, s, indexes in loops if indexes])
    show("3 ranges whose number is the value itself (no places)", [(p, k, s) for p, k, s, indexes in loops if not indexes])
    show("3 walks by hand", grep(WALK))
    show("4 conversions, defaults and printing by hand", grep(BY_HAND, tests=False))

    many, together, needs = [], collections.defaultdict(list), collections.defaultdict(list)
    for path, text in files:
        if "_tests/" in path:
            continue
        crate = path.split("/")[0]
        for line, name, parts in functions(text):
            if len(parts) >= 5:
                many.append((path, line, f"{name}, {len(parts)} parameters"))
            plain = sorted({re.sub(r"^mut ", "", p) for p in parts if ":" in p})
            for i, a in enumerate(plain):
                for b in plain[i + 1:]:
                    together[crate, a, b].append(name)
        for clause in re.findall(r"requires(?: \w+)? (\{.*\})", text):
            needs[crate, clause].append(path)
    show("5 functions of five parameters or more", many)
    show("5 pairs of parameters in three functions or more", [(c, 0, f"{a}, {b}: {', '.join(names)}") for (c, a, b), names in sorted(together.items()) if len(names) >= 3])
    show("5 requires that stand three times or more", [(c, 0, f"{clause} in {len(ps)}") for (c, clause), ps in sorted(needs.items()) if len(ps) >= 3])

    beside, parallel = [], []
    for path, text in files:
        for line, name, body in structs(text):
            arrays = re.findall(r"(\w+): \[[^;]+; ([^\]]+)\]", body)
            counts = re.findall(r"(\w+): usize", body)
            beside += [(path, line, f"{name}: {count} counts an array") for count in counts if arrays]
            sizes = collections.Counter(size for _, size in arrays)
            parallel += [(path, line, f"{name}: {n} arrays of {size}") for size, n in sizes.items() if n > 1]
    show("6 a length beside an array", beside)
    show("6 parallel arrays", parallel)
    show("7 function tables and dyn", grep(DYNAMIC))

    answers = texts = 0
    for path in glob.glob(os.path.join(folder, "crates/*/proofs/**/Answers.antt"), recursive=True):
        with open(path, encoding="utf-8") as f:
            answers += sum(1 for s in f if re.match(r"pub [\w'-]+ :", s))
    for path in glob.glob(os.path.join(folder, "crates/*/proofs/**/*.antt"), recursive=True):
        with open(path, encoding="utf-8") as f:
            texts += sum(1 for _ in f)
    print(f"8 answers in proofs/: {answers}")
    print(f"8 lines in proofs/: {texts}")


main()
