#!/usr/bin/env python3
"""Brings this repository's own names to today's spelling: words in snake case, types and facts in camel case.

usage: python3 tools/respell.py          at the top of the repository, once, after the kit's port.py
       python3 tools/respell.py --list   only prints the names, and what they would become

A name is turned if a file of specs/ or a lemma file of proofs/ has it with a dash and no library brought it in.
It is turned in these files, in the answers and invariants, in the clauses and ghost items of src/, and in the must-fail edits.
A name stops the script if what it would become stands already in a file that has it.
"""

import os
import re
import sys

NAME = re.compile(r"(?<![\w'◌·-])[A-Za-z][\w']*(?:-[\w']+)+(?![\w'-])")
WORD = re.compile(r"[A-Za-z_][\w']*(?:-[\w']+)*")
LINE = re.compile(r"^\s*(?:(?:abbrev|unfoldable|pub)\s+)*(record|data)?\s*([A-Za-z][\w'-]*)\s*(.*)$")
GHOST = re.compile(r"^\s*(?:ghost\b|requires\b|ensures\b)")


def files(suffix):
    for folder, dirs, names in os.walk("crates"):
        dirs[:] = sorted(d for d in dirs if d not in ("out", "target"))
        for name in sorted(names):
            if name.endswith(suffix):
                yield os.path.join(folder, name)


def read(path):
    with open(path, encoding="utf-8") as f:
        return f.read()


def is_lemma_file(path):
    """A file of specs/, or one that stands right in proofs/: what it names is ours, and not made by Rattle."""
    parts = path.split(os.sep)
    return len(parts) == 4 and parts[2] in ("specs", "proofs")


def code(line):
    """The line without its comment."""
    return line.split("--", 1)[0] if line.lstrip().startswith("--") or " -- " in line else line


def brought_in(text):
    """The names that `use` lines take from a library or from what Rattle makes of the code."""
    taken = set()
    for line in text.split("\n"):
        m = re.match(r"\s*(?:ghost )?use (\S+?)\.\{(.*)\}", line)
        if m and not re.match(r"Rattle\.\w+\.(specs|proofs)\.(?!declared)[A-Z]", m.group(1)) or m and m.group(1).startswith("Rattle.std."):
            taken |= set(WORD.findall(m.group(2)))
    return taken


def types(text):
    """The names that a file declares as records or data, or with a signature that ends in a universe."""
    found = set()
    for line in text.split("\n"):
        m = LINE.match(code(line))
        if m and m.group(1):
            found.add(m.group(2))
        elif m and m.group(3).startswith(":") and re.search(r"(→|:)\s*Type \d+\s*$", m.group(3)):
            found.add(m.group(2))
    return found


def camel(name):
    return "".join(part[:1].upper() + part[1:] for part in name.split("-"))


def table():
    """The names to turn, each with what it becomes, and the names that cannot be turned."""
    lemma_files = [p for p in files(".antt") if is_lemma_file(p)]
    everything = {p: read(p) for p in list(files(".antt")) + list(files(".rt"))}
    taken, facts, names = set(), set(), set()
    for text in everything.values():
        taken |= brought_in(text)
    for path in lemma_files:
        facts |= types(everything[path])
        for line in everything[path].split("\n"):
            names |= set(NAME.findall(code(line)))
    turned = {n: camel(n) if n in facts else n.replace("-", "_") for n in sorted(names - taken)}
    clashes = []
    for path in lemma_files:
        words = set(WORD.findall(" ".join(code(line) for line in everything[path].split("\n"))))
        clashes += [f"{path}: {n} and {turned[n]}" for n in sorted(words & set(turned)) if turned[n] in words]
    for new in set(turned.values()):
        olds = [n for n in turned if turned[n] == new]
        if len(olds) > 1:
            clashes.append(f"{' and '.join(olds)} become {new}")
    return turned, clashes


def respelled(text, turned):
    return NAME.sub(lambda m: turned.get(m.group(0), m.group(0)), text)


def respell_source(text, turned):
    """Only ghost items and clauses: a clause goes on until its braces close."""
    out, depth = [], 0
    for line in text.split("\n"):
        ghost = depth > 0 or GHOST.match(line)
        out.append(respelled(line, turned) if ghost else line)
        if ghost:
            depth += line.count("{") - line.count("}")
    return "\n".join(out)


def main():
    turned, clashes = table()
    if "--list" in sys.argv[1:]:
        for old, new in turned.items():
            print(f"{old}  {new}")
    if clashes:
        print("\n".join(clashes), file=sys.stderr)
        raise SystemExit("respell: these names fall together")
    if "--list" in sys.argv[1:]:
        return
    for path in list(files(".antt")) + list(files(".rt")) + list(files(".edit")):
        old = read(path)
        new = respell_source(old, turned) if path.endswith(".rt") else respelled(old, turned)
        if new != old:
            with open(path, "w", encoding="utf-8") as f:
                f.write(new)


main()
