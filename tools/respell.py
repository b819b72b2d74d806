#!/usr/bin/env python3
"""Brings the names of definitions and lemmas to one spelling: words in snake case.

usage: python3 tools/respell.py         at the top, after the kit's port.py and before any edit by hand

A name is turned where it is declared in specs/ or in a lemma file of proofs/ and begins with a small letter: `sizeBlock` and
`size-block` become `size_block`. Types, tags and modules keep their capitals. It is turned in clauses of src/, in specs/, in proofs/,
in must-fail edits and, between backquotes, in pages. Functions of src/, strings and names that a file takes from the library stay.
Where a lemma and a definition would get one name, the lemma's ends in `_law`. It prints the names that still stand in one file.
"""

import collections
import glob
import re

WORD = re.compile(r"[^\s(){}\[\].,;:\"`@]+")
DECLARED = re.compile(r"(?m)^\s*(?:(?:pub|abbrev|unfoldable)\s+)*([^\s(){}\[\].,;:\"]+)(?=\s*(?:\{[^}\n]*\}\s*|\([^)\n]*\)\s*)*:(?:\s|$))")
IMPORT = re.compile(r"(?m)^\s*(?:ghost )?(?:pub )?use ([^\s{;]+)\.\{([^}]*)\}")


def snake(name):
    name = re.sub(r"(?<=[a-z0-9])(?=[A-Z])", "_", name.replace("-", "_"))
    return name.lower() if name.isascii() else "".join(ch.lower() if ch.isascii() else ch for ch in name)


def turns(name):
    return name[:1].islower() and (re.search(r"[a-z0-9][A-Z]", name) or "-" in name.strip("-"))


def own(module, crates):
    words = module.split(".")
    return words[0] == "Rattle" and len(words) > 1 and words[1] in crates


def renamed(text, names, foreign, hyphens, lemma_file):
    out, last = [], 0
    for m in WORD.finditer(text):
        word = m.group(0)
        if word not in names or word in foreign:
            continue
        before = text[: m.start()]
        if "-" in word:
            if not hyphens(m.start()):
                continue
            if before.endswith("."):
                owner = re.search(r"([^\s(){}\[\].,;:\"]+)\.$", before)
                if not lemma_file and not (owner and owner.group(1)[:1].isupper()):
                    continue
        out.append(text[last : m.start()])
        out.append(names[word])
        last = m.end()
    out.append(text[last:])
    return "".join(out)


def outside_comments(text, mark):
    """Whether a place is code: names with a hyphen are words of prose in a comment."""

    def ask(at):
        line = text[text.rfind("\n", 0, at) + 1 : at]
        return mark not in line

    return ask


def files(*patterns):
    return sorted(p for pattern in patterns for p in glob.glob(pattern, recursive=True) if "/out/" not in p)


def read(path):
    with open(path, encoding="utf-8") as f:
        return f.read()


def main():
    crates = {p.split("/")[1] for p in glob.glob("crates/*/src")}
    declared = set()
    for path in files("crates/*/specs/**/*.antt", "crates/*/proofs/*.antt"):
        declared |= {m.group(1) for m in DECLARED.finditer(read(path)) if not m.group(1).startswith(("λ", "{", "("))}
    names = {n: snake(n) for n in declared if turns(n)}
    by_new = collections.defaultdict(set)
    for n in declared:
        by_new[names.get(n, n)].add(n)
    for new, olds in sorted(by_new.items()):
        lemmas = {n for n in olds if "-" in n or n in ("first_out", "front_length")}
        if len(olds) > 1:
            for n in lemmas:
                names[n] = new + "_law"
            print(f"together: {' '.join(sorted(olds))}: {', '.join(sorted(names.get(n, n) for n in olds))}")
    # names that port.py has turned already, as pages and edits still have them
    earlier = {}
    for path in files("crates/*/must-fail/*.edit", "**/*.md"):
        for m in WORD.finditer(read(path)):
            word = m.group(0)
            if turns(word) and word not in names and snake(word) in declared:
                earlier[word] = snake(word)
    changed = 0
    for path in files("crates/*/specs/**/*.antt", "crates/*/proofs/**/*.antt", "crates/*/src/**/*.rt", "crates/*/must-fail/*.edit", "**/*.md"):
        text = read(path)
        foreign = set()
        for m in IMPORT.finditer(text):
            if not own(m.group(1), crates):
                foreign |= {w.strip() for w in m.group(2).split(",")}
        if path.endswith(".md"):
            new = re.sub(r"`[^`\n]*`", lambda m: renamed(m.group(0), names | earlier, set(), lambda at: True, True), text)
        elif path.endswith(".edit"):
            new = renamed(text, names | earlier, set(), lambda at: True, True)
        else:
            mark = "//" if path.endswith(".rt") else "--"
            plain = len(path.split("/")) == 4 and path.endswith(".antt")
            new = renamed(text, names, foreign, outside_comments(text, mark), plain)
            words = {w for w in WORD.findall(text)}
            for a in words:
                if a in names and a not in foreign and names[a] in words:
                    print(f"look: {path}: {a} and {names[a]}")
        if new != text:
            changed += 1
            with open(path, "w", encoding="utf-8") as f:
                f.write(new)
    print(f"{len(names)} names, {changed} files")


if __name__ == "__main__":
    main()
