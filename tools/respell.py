#!/usr/bin/env python3
"""Brings the repository's own definitions and lemmas to today's spelling.

usage: python3 tools/respell.py        at the top of the repository, once, after the kit's port.py

A word is in snake case (`open-sum` becomes `open_sum`), and a fact or a type in camel case (`Count-follows` becomes
`CountFollows`). Only names that a file of specs/ or proofs/ declares are respelled: names of the library, of goals and
of steps (`loop-i-preserved`, `c.size-at`) are left, and so are functions of src/, strings and everything that is read or
printed. A new name that is taken already is given in OTHER. It writes docs/RESPELLED.tsv, old and new.
"""

import collections
import glob
import os
import re
import sys

# old name: new name, where the plain respelling is taken by something else
OTHER = {
    "New-rule": "NewRuleAt",  # `NewRule` is a type of src/
}

# files of a function's proof, where a step may have the name of a definition
ANSWERS = ("Answers.antt", "Invariants.antt", "Proof.antt")
NAME = re.compile(r"(?<![A-Za-z0-9_'\u2115\u2124\u00b7+-])[A-Za-z][A-Za-z0-9_']*(?:-[A-Za-z0-9_']+)+(?![A-Za-z0-9_'+-])")
SIGNATURE = re.compile(r"^\s*(?:(?:abbrev|unfoldable|pub)\s+)*(?:(record|data|module)\s+)?([A-Za-z][A-Za-z0-9_'-]*)(\s.*)?$")


def antt_files():
    return sorted(p for p in glob.glob("crates/**/*.antt", recursive=True) if "/out/" not in p)


def declared():
    """The names with a dash that the repository declares itself."""
    found = set()
    for path in antt_files():
        with open(path, encoding="utf-8") as f:
            for line in f:
                if line.strip().startswith("--") or line.startswith("use "):
                    continue
                line = re.sub(r"\s--.*$", "", line)
                m = SIGNATURE.match(line)
                if not m:
                    continue
                kind, name, rest = m.group(1), m.group(2), m.group(3) or ""
                if "-" not in name or re.match(r"^\s*:\s*goal\.", rest):
                    continue
                if kind or re.match(r"^\s*:", rest) or re.match(r"^(\s*[({][^=]*[)}])+\s*:", rest):
                    found.add(name)
    return found


def respelled(name):
    if name in OTHER:
        return OTHER[name]
    parts = name.split("-")
    if name[0].isupper():
        return "".join(p[0].upper() + p[1:] for p in parts)
    return "_".join(parts)


def turn(text, names, answers):
    def one(m):
        name = m.group(0)
        if name not in names:
            return name
        before = m.string[: m.start()]
        # a step of a proof, or what it holds, is named by the check
        if answers and re.search(r"(?<![A-Za-z0-9_'])[cw]\.$", before):
            return name
        return names[name]

    out = []
    for line in text.splitlines(keepends=True):
        if re.search(r"^\s*(pub )?[A-Za-z0-9_'+-]+ : goal\.", line):
            out.append(line)
        elif re.match(r"^use Rattle\.std|^use (borrow|native|lib|mathlib|Prim|denote)\b", line):
            out.append(line)
        else:
            out.append(NAME.sub(one, line))
    return "".join(out)


def main():
    if not os.path.isdir("crates"):
        print("run it at the top of the repository", file=sys.stderr)
        return 2
    names = {n: respelled(n) for n in sorted(declared())}
    taken = collections.defaultdict(list)
    for old, new in names.items():
        taken[new].append(old)
    for new, olds in taken.items():
        if len(olds) > 1:
            print(f"two names fall together: {olds} -> {new}", file=sys.stderr)
            return 1
    rt = sorted(p for p in glob.glob("crates/*/src/**/*.rt", recursive=True))
    edits = sorted(glob.glob("crates/*/must-fail/*.edit"))
    pages = sorted(glob.glob("docs/*.md")) + ["README.md"]
    for path in antt_files() + rt + edits + pages:
        with open(path, encoding="utf-8") as f:
            text = f.read()
        new = turn(text, names, os.path.basename(path) in ANSWERS)
        if new != text:
            with open(path, "w", encoding="utf-8") as f:
                f.write(new)
    with open("docs/RESPELLED.tsv", "w", encoding="utf-8") as f:
        for old, new in names.items():
            f.write(f"{old}\t{new}\n")
    print(f"{len(names)} names respelled")
    return 0


if __name__ == "__main__":
    sys.exit(main())
