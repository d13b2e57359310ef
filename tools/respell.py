#!/usr/bin/env python3
"""Brings the names that this repository gives to its definitions and lemmas to snake case, once.

usage: python3 tools/respell.py          rewrites the crates and the documents in place
       python3 tools/respell.py --list   only lists each name with what it becomes, and where names fall together

A name is the repository's own where one of its files of specs/ or proofs/ gives it a type, takes it as an argument or binds
it, or where a source file has it as a ghost member, a ghost field or the label of a clause. Names that the toolchain makes,
names of its library, and the functions of src/ keep their spelling; so do strings, inputs and outputs.
"""

import os
import re
import sys

TOP = os.path.dirname(os.path.dirname(os.path.abspath(__file__)))
LETTER = r"[^\W]|['\u2032\u2080-\u2089-]"
WORD = re.compile(r"(?:" + LETTER + r")+")
# what a file of the toolchain's proofs answers is named by the toolchain
MADE = ("Answers.antt", "Invariants.antt", "Proof.antt")


def read(path):
    with open(path, encoding="utf-8") as f:
        return f.read()


def files(folder, endings):
    for where, dirs, names in os.walk(os.path.join(TOP, folder)):
        dirs[:] = sorted(d for d in dirs if d not in ("out", "target", ".git"))
        for name in sorted(names):
            if name.endswith(endings):
                yield os.path.join(where, name)


def pieces(text, opener):
    """The text cut into (is it code, piece): a piece that is no code is a string of a source file."""
    if opener != ".rt":
        return [(True, text)]
    out, last = [], 0
    for m in re.finditer(r'//[^\n]*|b?"(?:\\.|[^"\\])*"', text):
        if m[0].startswith("//"):
            continue
        out += [(True, text[last:m.start()]), (False, m[0])]
        last = m.end()
    return out + [(True, text[last:])]


def bare(text):
    """The text without its comments."""
    return re.sub(r"--[^\n]*|//[^\n]*", "", text)


def given(path):
    """The names that a file gives."""
    text = bare(read(path))
    names = set()
    if path.endswith(".antt"):
        heads = re.findall(r"(?m)^\s*(?:(?:pub|abbrev|unfoldable|data|record|ruleset)\s+)*((?:" + LETTER + r")+)(?=[^\n:=]*\s:\s)", text)
        names.update(heads)
        names.update(re.findall(r"\|\s*((?:" + LETTER + r")+)\s*:", text))
        names.update(re.findall(r"(?:record\s*(?:" + LETTER + r"|\.)*\s*\{|;)\s*((?:" + LETTER + r")+)\s*=", text))
        for group in re.findall(r"[({]([^(){}:]+):", text):
            names.update(group.split())
        for group in re.findall(r"λ\s*([^.:()]+)[.:]", text):
            names.update(group.split())
        names.update(re.findall(r"\blet\s+((?:" + LETTER + r")+)", text))
        if os.path.basename(path) in MADE:
            top = re.findall(r"(?m)^(?:(?:pub|abbrev)\s+)*((?:" + LETTER + r")+)\s*:\s*goal\.", text)
            names.difference_update(top)
    else:
        names.update(re.findall(r"\bghost\s+((?:" + LETTER + r")+)\s*:", text))
        names.update(re.findall(r"\b(?:requires|ensures)\s+((?:" + LETTER + r")+)\s*\{", text))
    return {n for n in names if WORD.fullmatch(n) and re.search(r"\w[-\u2032]|[-\u2032]\w", n) and not n.startswith("-")}


def borrowed():
    """The names that the files take from the toolchain's library."""
    names = set()
    for path in files("crates", (".antt", ".rt")):
        for group in re.findall(r"\buse (?:Rattle\.std|native|lib|borrow|mathlib|Prim)\.[\w.]*\.?\{([^}]*)\}", read(path)):
            names.update(w.strip() for part in group.split(",") for w in part.split(" as "))
    return names


def becomes(name):
    return name.replace("-", "_").replace("\u2032", "'")


def table():
    named = {}
    for path in files("crates", (".antt", ".rt")):
        for name in given(path):
            named.setdefault(name, set()).add(os.path.relpath(path, TOP))
    for name in borrowed():
        named.pop(name, None)
    return named


def words(path):
    return set(WORD.findall(bare(read(path))))


def turn(text, names):
    return WORD.sub(lambda m: becomes(m[0]) if m[0] in names else m[0], text)


def turn_document(text, names):
    """In a document only what stands between back ticks is a name."""
    return re.sub(r"`[^`\n]+`", lambda m: turn(m[0], names), text)


def main(argv):
    named = table()
    if argv == ["--list"]:
        for name in sorted(named):
            print(name, becomes(name), *sorted(named[name])[:3])
        for path in files("crates", (".antt", ".rt")):
            here = words(path)
            for name in sorted(here & set(named)):
                if becomes(name) in here:
                    print("FALLS TOGETHER", os.path.relpath(path, TOP), name, becomes(name))
        return 0
    for path in files("crates", (".antt", ".rt")):
        old = read(path)
        new = "".join(turn(t, named) if code else t for code, t in pieces(old, os.path.splitext(path)[1]))
        if new != old:
            with open(path, "w", encoding="utf-8") as f:
                f.write(new)
    for path in [os.path.join(TOP, "README.md"), *files("docs", (".md",))]:
        if os.path.basename(path).startswith("PORT"):
            continue
        old = read(path)
        new = turn_document(old, named)
        if new != old:
            with open(path, "w", encoding="utf-8") as f:
                f.write(new)
    return 0


if __name__ == "__main__":
    raise SystemExit(main(sys.argv[1:]))
