#!/usr/bin/env python3
"""Respells this repository's own definitions and lemmas, once, after the kit's port.py.

usage: python3 tools/respell.py            at the top of the repository
       python3 tools/respell.py COMMIT     the same, by the names that the files of COMMIT declare

Names of specs/ and proofs/ that were written with dashes become snake case, facts become camel case.
A dash stays in a lemma where it joins the names of two functions, as in length-values.
Functions of src/, goals and steps that Rattle names, strings and outputs are left alone.
"""
import glob
import re
import subprocess
import sys

TOKEN = r"[^\s(){}\[\];.:,«»⌜⌝|λ]"
SIGNATURE = re.compile(r"^(?:abbrev |unfoldable )?(?:pub )?(?:record |data )?(" + TOKEN + r"+)(?: [^:=\n]*)? : (.*)$", re.M)
INNER = re.compile(r"^ +(?:abbrev |unfoldable )?(?:pub )?(" + TOKEN + r"+)(?: [^:=\n]*)? : (.*)$", re.M)
FIELD = re.compile(r"^  (?:pub )?(" + TOKEN + r"+) : ", re.M)
# functions of the library that lemmas are named after
STD = {"length", "append", "push", "drop", "take", "map", "cons", "sum"}
# words that are a definition's name and here are none
PHRASES = {"same-price", "led-moved", "answer-length", "placed-placed"}


def read(path):
    with open(path, encoding="utf-8") as f:
        return f.read()


def tree(commit):
    """The text of each file of crates/, as it stands or as the commit has it."""
    if commit is None:
        return {p: read(p) for p in sorted(glob.glob("crates/**/*", recursive=True)) if p.endswith((".antt", ".rt")) and "/out/" not in p}
    git = lambda *a: subprocess.run(["git", *a], check=True, capture_output=True, text=True).stdout
    paths = git("-c", "core.quotepath=off", "ls-tree", "-r", "--name-only", commit, "crates").splitlines()
    return {p: git("show", f"{commit}:{p}") for p in paths if p.endswith((".antt", ".rt"))}


def snake(name):
    name = name.replace("′", "'")
    return re.sub(r"-([a-z])", lambda m: m.group(1).upper(), name) if name[0].isupper() else name.replace("-", "_")


def names_of(files):
    definitions, lemmas, fields = set(), set(), set()
    for p, t in files.items():
        parts = p.split("/")
        if p.endswith(".rt"):
            definitions |= set(re.findall(r" as (" + TOKEN + r"+-" + TOKEN + r"+)[,}]", t))
        elif parts[2] == "specs":
            definitions |= {m.group(1) for m in SIGNATURE.finditer(t)}
            for block in re.split(r"\n(?=\S)", t):
                if block.strip().startswith(("record ", "pub record ")) or "\npub record " in block:
                    fields |= {m.group(1) for m in FIELD.finditer(block)}
        else:
            lemmas |= {m.group(1) for m in SIGNATURE.finditer(t) if not m.group(2).startswith("goal.")}
            if len(parts) == 4:
                lemmas |= {m.group(1) for m in INNER.finditer(t)}
            for block in re.split(r"\n(?=\S)", t):
                if re.match(r"(pub )?record .* where", block):
                    fields |= {m.group(1) for m in FIELD.finditer(block)}
    joined = {snake(n) for n in definitions} | STD
    names = {}
    for n in sorted(definitions | lemmas):
        if "-" not in n and "′" not in n:
            continue
        new = snake(n)
        if n in lemmas and n not in definitions and n not in PHRASES and not n[0].isupper():
            parts = n.split("-")
            for k in range(1, len(parts)):
                a, b = "_".join(parts[:k]), "_".join(parts[k:])
                if a in joined and b in joined:
                    new = a + "-" + b
                    break
        if new != n:
            names[n] = new
    taken = {}
    for n, new in names.items():
        if new in taken or new in definitions | lemmas:
            print(f"look: {n} and {taken.get(new, new)} are one name now")
        taken[new] = n
    return names, {n: snake(n) for n in fields if snake(n) != n}


def main():
    names, marks = names_of(tree(sys.argv[1] if len(sys.argv) > 1 else None))
    word = re.compile(r"(\.?)(" + TOKEN + r"+)")

    def turn(m):
        dot, n = m.group(1), m.group(2)
        if dot:
            return dot + marks.get(n, n)
        return names.get(n, marks.get(n, n))

    for p, old in tree(None).items():
        if p.endswith(".antt"):
            new = word.sub(turn, old)
        else:
            new = "\n".join(word.sub(turn, x) if re.match(r"\s*(ghost|ensures|requires)\b", x) else x for x in old.split("\n"))
        if new != old:
            with open(p, "w", encoding="utf-8") as f:
                f.write(new)
    for n in sorted(names):
        print(f"{n} -> {names[n]}")
    for n in sorted(marks):
        print(f".{n} -> .{marks[n]}")


main()
