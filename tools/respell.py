#!/usr/bin/env python3
"""Brings the names of definitions, lemmas and fields to snake case, after port.py.

Run once, at the top of a checkout. It reads which names the repository's own specs/ and proofs/ declare, and renames those that hold
a dash or a capital inside; names that the toolchain makes (of goals and steps) and names of its library stay. Source names, strings,
inputs and outputs are left alone: a renamed name has a dash or a capital, so no name of src/ can be one.
"""
import collections
import glob
import re

END = r"(?![^\s(){}.,;`⌜⌝])"
# behind `c.` stand the steps of a goal, which the toolchain names
START = r"(?<![^\s(){}.,;`⌜⌝])(?<!\bc\.)"

# lemmas whose name would be that of the function they speak of, or of a word of the library
LEMMAS = {
    "bit-and": "bit_and_lem", "bit-or": "bit_or_lem", "bit-xor": "bit_xor_lem",
    "example-image": "example_image_lem", "same-policy": "same_policy_lem", "last-in": "last_in_lem",
    "no-permit": "no_permit_lem", "declared-condition": "declared_condition_lem", "letter-of": "letter_of_lem",
    "level-of": "level_of_lem", "else-block": "else_block_lem", "then-block": "then_block_lem", "first-in": "first_in_lem",
    "declared-variable": "declared_variable_lem", "are-bytes": "are_bytes_lem", "kind-at": "kind_at_lem",
    "value-at": "value_at_lem", "getD-dense": "get_or_dense", "getD-joined": "get_or_joined", "getD-sparse": "get_or_sparse",
    "getD-values": "get_or_values",
}
# fields, which stand apart from functions and need no such name
FIELDS = {"no-permit": ("no_permit", ("crates/program/specs/Examples.antt", "crates/program/proofs/Examples.antt"))}
# the same as above for names that port.py had brought to snake case, by file
IN_FILES = {
    "has_first": ("has_first_lem", "crates/policy/proofs/Masks.antt"),
    "is_none": ("none_without", "crates/siteunit/proofs/"),
}


def texts():
    for kind in ("specs", "proofs"):
        yield from sorted(glob.glob(f"crates/*/{kind}/**/*.antt", recursive=True))


def snake(name):
    name = name.replace("-", "_")
    return re.sub(r"([a-z0-9])([A-Z])", lambda m: m.group(1) + "_" + m.group(2).lower(), name)


def declared():
    names = collections.defaultdict(set)
    for file in texts():
        for line in open(file):
            if line.strip().startswith("--"):
                continue
            # one name, or several fields or constructors of one type; and the names that an import gives
            m = re.match(r"^( *)(abbrev |unfoldable )?(pub )?((?:[^\s(){}.,;:◌]+ )+): (.*)$", line.rstrip("\n"))
            if m and not re.match(r"(goal|need)\.", m.group(5)) and not {"=", "let"} & set(m.group(4).split()):
                for name in m.group(4).split():
                    names[name].add(file)
    for file in list(texts()) + sorted(glob.glob("crates/*/src/**/*.rt", recursive=True)):
        for line in open(file):
            if re.match(r"(ghost )?use ", line):
                for name in re.findall(r" as ([a-z][A-Za-z0-9_]*)", line):
                    names[name].add(file)
    return names


def main():
    names = declared()
    renamed = {}
    for name in names:
        inner = "-" in name or re.search(r"[a-z][0-9]?[A-Z]", name)
        if inner and not name[0].isupper():
            renamed[name] = LEMMAS.get(name, snake(name))
    together = collections.defaultdict(set)
    for name, new in renamed.items():
        together[new].add(name)
        if new in names and new not in {"has_first"}:
            print("there is one already:", name, new, sorted(names[new])[:2])
    for new, old in sorted(together.items()):
        if len(old) > 1:
            print("fall together:", new, sorted(old))
    sources = sorted(glob.glob("crates/*/src/**/*.rt", recursive=True))
    edits = sorted(glob.glob("crates/*/must-fail/*.edit"))
    documents = ["README.md"] + sorted(glob.glob("docs/*.md"))
    token = re.compile(START + "(" + "|".join(re.escape(n) for n in sorted(renamed, key=len, reverse=True)) + ")" + END)
    quoted = re.compile(r"`[^`\n]*`")
    count = 0
    for file in list(texts()) + sources + edits + documents:
        text = open(file).read()
        new = text
        for old, (to, where) in IN_FILES.items():
            if file.startswith(where):
                new = re.sub(START + re.escape(old) + END, to, new)
        for old, (to, where) in FIELDS.items():
            if file in where:
                new = re.sub(START + re.escape(old) + END, to, new)
        if file in documents:
            new = quoted.sub(lambda m: token.sub(lambda n: renamed[n.group(1)], m.group(0)), new)
        else:
            new = token.sub(lambda m: renamed[m.group(1)], new)
        if new != text:
            open(file, "w").write(new)
            count += 1
    print(len(renamed), "names,", count, "files")


if __name__ == "__main__":
    main()
