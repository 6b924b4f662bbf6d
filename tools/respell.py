#!/usr/bin/env python3
"""Respells this repository's own antt names: words are in snake case, types and facts in camel case.

usage: python3 tools/respell.py [ROOT]      once, on a tree that the kit's port.py has just turned

A name is the repository's own if it stands in a module of specs/ or proofs/ and no line imports it from the library.
Names that Rattle makes stand only in Answers.antt, Invariants.antt and Proof.antt, so they are not among them. Strings, and the code of src/ outside its clauses, stay.
It ends with status 1, and writes nothing, where two names of one file would fall together.
"""

import os
import re
import sys

NAME = re.compile(r"[^\s(){}\[\];,.:=→λ×\"@«»`]+")
DASHED = re.compile(r"[^\W_]'*-'*[^\W_]")
WALKS = ("Answers.antt", "Invariants.antt", "Proof.antt")
LIBRARY = re.compile(r"(?m)^\s*(?:pub )?(?:ghost )?use (?:Rattle\.std|Rattle\.core|Prim|mathlib|lib)\b[^\n]*")
CLAUSE = re.compile(r"^\s*(pub )?(ghost\b|ensures\b|requires\b|invariant\b)")


def new_name(old):
    parts = old.split("-")
    if old[0].isupper():
        return "".join(p[:1].upper() + p[1:] for p in parts)
    return "_".join(parts)


def pieces(line, comment):
    """The line as (text, kind) pieces, kind one of code, string, comment."""
    out, at, start = [], 0, 0
    while at < len(line):
        if line[at] == '"':
            end = line.find('"', at + 1)
            end = len(line) if end < 0 else end + 1
            out += [(line[start:at], "code"), (line[at:end], "string")]
            at = start = end
        elif line.startswith(comment, at) and (comment == "//" or ((at == 0 or line[at - 1].isspace()) and (at + 2 == len(line) or line[at + 2].isspace()))):
            out += [(line[start:at], "code"), (line[at:], "comment")]
            return out
        else:
            at += 1
    return out + [(line[start:], "code")]


def code_of(text):
    return "\n".join("".join(p for p, kind in pieces(l, "--") if kind == "code") for l in text.split("\n"))


def files(root):
    for folder, dirs, names in os.walk(os.path.join(root, "crates")):
        dirs[:] = sorted(d for d in dirs if d != "out")
        for name in sorted(names):
            path = os.path.join(folder, name)
            if name.endswith((".antt", ".rt")) and not os.path.islink(path):
                with open(path, encoding="utf-8") as f:
                    yield path, f.read()


def own_names(all_files):
    library, own = set(), set()
    for path, text in all_files:
        if path.endswith(".antt"):
            for m in LIBRARY.finditer(code_of(text)):
                library.update(NAME.findall(m.group(0)))
    for path, text in all_files:
        if path.endswith(".antt") and os.path.basename(path) not in WALKS:
            own.update(n for n in NAME.findall(code_of(text)) if DASHED.search(n))
    return own - library


def respelled(text, own):
    return NAME.sub(lambda m: new_name(m.group(0)) if m.group(0) in own else m.group(0), text)


def in_quotes(text, own):
    return re.sub(r"`[^`]*`", lambda m: respelled(m.group(0), own), text)


def turned_line(line, own, is_antt):
    if not is_antt and not CLAUSE.match(line):
        return line
    comment = "--" if is_antt else "//"
    out = ""
    for text, kind in pieces(line, comment):
        out += respelled(text, own) if kind == "code" else in_quotes(text, own) if kind == "comment" else text
    return out


def fall_together(path, text, own):
    """Names of which the new form stands in the file already, but as a part of a path, a field or a field's value: those are told apart by the type."""
    code = code_of(text)
    seen = set(NAME.findall(code))
    free = {n for before, n, after in re.findall(r"(.?)(?<![^\s(){}\[\];,.:=→λ×@«»])(" + NAME.pattern + r")( = )?", code) if before != "." and not after}
    return [(path, n, new_name(n)) for n in sorted(seen & own) if new_name(n) in free]


def main(argv):
    root = argv[0] if argv else "."
    all_files = list(files(root))
    own = own_names(all_files)
    pairs = {}
    for n in own:
        pairs.setdefault(new_name(n), []).append(n)
    bad = [f"{sorted(ns)} -> {n}" for n, ns in pairs.items() if len(ns) > 1]
    for path, text in all_files:
        if path.endswith(".antt"):
            bad += [f"{p}: {a} and {b}" for p, a, b in fall_together(path, text, own)]
    if bad:
        print("\n".join(bad))
        return 1
    changed = 0
    for path, text in all_files:
        new = "\n".join(turned_line(l, own, path.endswith(".antt")) for l in text.split("\n"))
        if new != text:
            changed += 1
            with open(path, "w", encoding="utf-8") as f:
                f.write(new)
    print(f"{len(own)} names respelled in {changed} files")
    return 0


if __name__ == "__main__":
    raise SystemExit(main(sys.argv[1:]))
