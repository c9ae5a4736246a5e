#!/usr/bin/env python3
"""Brings the repository's own names to today's spelling: words in snake case, types and modules in camel case.

usage: python3 tools/respell.py           at the top, once, behind port.py: respells by tools/respelled.tsv
       python3 tools/respell.py names     prints the rows that a tree wants, from what its .antt files declare

A name is respelled where it stands as a whole word, in .antt and .rt files of crates/.
"""

import os
import re
import subprocess
import sys

TOP = os.path.dirname(os.path.dirname(os.path.realpath(__file__)))
TABLE = os.path.join(TOP, "tools", "respelled.tsv")
WORD = r"[^\s(){}\[\];,.\u231c\u231d\"`]+"
MODULES = {"theory": "Theory", "cases": "Cases", "model": "Model"}


def files():
    for folder, dirs, names in os.walk(os.path.join(TOP, "crates")):
        dirs[:] = sorted(d for d in dirs if d != "out")
        for f in sorted(names):
            if f.endswith((".antt", ".rt")):
                yield os.path.join(folder, f)


def read(path):
    with open(path, encoding="utf-8") as f:
        return f.read()


def declared():
    """Each declared name with how it was declared: 'def' for what computes or is a type, 'lemma' else; and what is imported of others."""
    own = {c for c in os.listdir(os.path.join(TOP, "crates"))}
    kinds, foreign, words = {}, set(), set()
    for path in files():
        text = read(path)
        words |= set(re.findall(WORD, text))
        for m in re.finditer(r"(?m)^\s*(?:ghost )?(?:pub )?use ([\w'.\u25cc<>+=-]+?)\.\{([^}]*)\}", text):
            parts = m.group(1).split(".")
            if not (parts[0] == "Rattle" and len(parts) > 1 and parts[1] in own):
                foreign |= {w.strip().split(" as ")[0] for w in m.group(2).split(",")}
        if path.endswith("Proof.antt") or not path.endswith(".antt"):
            continue
        for line in text.splitlines():
            s = line.strip()
            m = re.match(r"^((?:unfoldable |abbrev |pub |inductive |record |data )*)(" + WORD + r") (?::(?! :)|\()", s)
            if m and not s.startswith("--") and m.group(2) not in ("use", "rw", "let", "subst", "ap", "sym"):
                how = "def" if re.search(r"unfoldable|abbrev|inductive|record|data", m.group(1)) else "lemma"
                if kinds.get(m.group(2)) != "def":
                    kinds[m.group(2)] = how
    return kinds, foreign, words


def snake(name):
    return re.sub(r"(?<=[a-z0-9])([A-Z])", lambda m: "_" + m.group(1).lower(), name)


def is_camel(name):
    return re.match(r"[a-z]+[a-z0-9]*[A-Z]", name) and re.fullmatch(r"[A-Za-z0-9']+", name)


def respelled(name):
    if is_camel(name):
        return snake(name)
    if not re.fullmatch(r"[\w'-]+", name) or "-" not in name.strip("-"):
        return name
    return "_".join(snake(p) if is_camel(p) else p for p in name.split("-"))


def names():
    """A lemma that would have the name of what it is about gets `_lem` behind it. A specification has the name of the function that computes it."""
    kinds, foreign, words = declared()
    camel = {w for w in words if is_camel(w)} - foreign
    taken = {respelled(n) for n in camel} | {n for n, how in kinds.items() if how == "def"}
    for n in sorted((set(kinds) | camel) - foreign):
        to = respelled(n)
        if n not in camel and to in taken and kinds.get(n) != "def" and (to != n or to in {respelled(w) for w in camel}):
            to += "_lem"
        if to != n:
            print(f"{n}\t{to}")


def turn():
    table = dict(l.split("\t") for l in read(TABLE).splitlines() if l)
    code = re.compile(r"(?<![^\s(){}\[\];,.\u231c\u231d\"`])(" + "|".join(map(re.escape, sorted(table, key=len, reverse=True))) + r")(?![^\s(){}\[\];,.\u231c\u231d\"`:])")
    module = re.compile(r"(\.specs|\bmod|Rattle\.grammar\.specs)([ .])(theory|cases|model)\b")
    n = 0
    for path in files():
        text = read(path)
        new = "\n".join(line if re.match(r"\s*(?:--|//)", line) and "`" not in line and "  " not in line.strip()[3:] else code.sub(lambda m: table[m.group(1)], line) for line in text.split("\n"))
        new = module.sub(lambda m: m.group(1) + m.group(2) + MODULES[m.group(3)], new)
        if new != text:
            n += 1
            with open(path, "w", encoding="utf-8") as f:
                f.write(new)
    specs = os.path.join(TOP, "crates", "grammar", "specs")
    for old, to in MODULES.items():
        for end in ("", ".antt"):
            if os.path.exists(os.path.join(specs, old + end)):
                subprocess.run(["git", "mv", os.path.join(specs, old + end), os.path.join(specs, to + end)], cwd=TOP, check=True)
    print(f"respell: {n} files")


if __name__ == "__main__":
    names() if sys.argv[1:] == ["names"] else turn()
