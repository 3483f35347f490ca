#!/usr/bin/env python3
"""Brings this repository's own definitions and lemmas to today's spelling: words in snake case, types in camel case.

usage: tools/respell.py [--check]      once, right after port.py, at the top of the repository

A name is this repository's own where specs/ or proofs/*.antt declare it: at the head of a line or of a record's field,
behind `let`, in a `where`, or as a parameter of a module. Of these every name with a hyphen, and every word in camel
case, is turned, in .antt files everywhere and in .rt files in clauses, ghost items and `ghost use` lines. Names that the
check makes of the code (goals, steps) and names of the library stay. The names that clauses import under another name
(`make as makeCall`) are turned too. What a file of proofs/F names for itself is turned in that file alone. Names that
would fall together stop the script.
"""

import collections
import os
import re
import subprocess
import sys
import tempfile

SNAKE = "/opt/rattle/port/notes/2026-11-18-names-are-in-snake-case/snake.py"
NAME = r"[^\s(){}.;,@\"«»:=λ→∀]+"
QUIET = re.compile(r'"(?:[^"\\\n]|\\.)*"|(?<![^\s(){}.;,@"«»])--[^\n]*')
DECLARED = [
    # at the head of a line: a definition, a constructor, a field, a lemma of a `where`
    re.compile(rf"(?m)^\s*(?:abbrev |unfoldable |opaque |pub |record |data )*({NAME})(?: +\(|\s+:|\s*:)"),
    re.compile(rf"(?m)^\s*(?:pub )?(?:record|data) ({NAME})"),
    re.compile(rf"\blet ({NAME})\s*(?::|=)"),
    re.compile(rf"\(({NAME}(?: {NAME})*) :"),
    re.compile(rf"\{{({NAME}(?: {NAME})*) :"),
    re.compile(rf"\bas ({NAME})"),
]


def texts(*endings):
    for folder, folders, files in os.walk("crates"):
        folders[:] = sorted(f for f in folders if f != "out")
        for f in sorted(files):
            if f.endswith(endings):
                yield os.path.join(folder, f)


def read(path):
    with open(path, encoding="utf-8") as f:
        return f.read()


def is_answer(path):
    """A proof of one function: its names at the head of a line are the check's."""
    return os.path.basename(path) in ("Answers.antt", "Choices.antt", "Invariants.antt", "Proof.antt") and "/proofs/" in path and path.count("/") > 3


def ghost(text):
    """What of a .rt file is logic."""
    return "\n".join(re.findall(r"ghost use [^;]*;|(?:requires|ensures)[^{\n]*\{[^\n]*\}|ghost [^\n]*", text))


def declared(text):
    code = QUIET.sub(" ", text)
    for pattern in DECLARED:
        for m in pattern.finditer(code):
            yield from m[1].split()


def is_own(name):
    return re.search(r"[A-Za-z0-9]-[A-Za-z0-9⊎≢]", name) or re.fullmatch(r"[a-z]+[a-z0-9]*(?:[A-Z][a-z0-9]*)+'*", name) or "′" in name


# Names that stand beside a function of the code, or beside another name of this kind, in one file.
BY_HAND = {"isBlack": "says_black", "isGray": "says_gray", "isWhite": "says_white", "isPurple": "says_purple", "gatherOne": "gathered_one", "markOne": "marked_one", "Gives-none": "gives_none", "countBy-map": "count_by_map", "Goes_on": "GoesOn"}

# Names of ours that stand where the check's do, or that a pattern or a λ binds.
BESIDE = {"Goes_on", "Gives-none", "countBy-map", "raised-rows", "relinked-size", "yes-feed", "not-gone"}


def spelled(name):
    if name in BY_HAND:
        return BY_HAND[name]
    name = name.replace("′", "'")
    if name[0].isupper():
        return "".join(p[:1].upper() + p[1:] for p in name.split("-"))
    name = re.sub(r"([a-z0-9])([A-Z])", lambda m: m[1] + "_" + m[2].lower(), name) if "-" not in name else name
    return "_".join(re.sub(r"([a-z0-9])([A-Z])", lambda m: m[1] + "_" + m[2].lower(), p) for p in name.split("-"))


def library():
    """The names that files import from the library, which stay."""
    kept = set()
    for path in texts(".antt", ".rt"):
        for m in re.finditer(r"use (?:Rattle\.std|mathlib|native|lib|Prim|denote|logic)\b[^{;\n]*\{([^}]*)\}", read(path)):
            kept |= {w.split(" as ")[0].strip(" «»") for w in m[1].split(",")}
    return kept


def main(argv):
    kept = library()
    shared, inner = set(BESIDE), collections.defaultdict(set)
    for path in texts(".antt"):
        names = {n for n in declared(read(path)) if is_own(n)} - kept
        if is_answer(path):
            heads = set(re.findall(rf"(?m)^(?:abbrev |pub |unfoldable )*({NAME})", read(path)))
            inner[path] |= names - heads
        else:
            shared |= names
    for path in texts(".rt"):
        text = ghost(read(path))
        shared |= {n for n in re.findall(rf"as «?({NAME})»?", text) if is_own(n)} - kept
        shared |= {n for n in re.findall(r"«([^»]+)»", text) if is_own(n)} - kept
    # generated names, as far as the answers name them: behind `c.` or `goal.`
    made = set()
    for path in texts(".antt"):
        if is_answer(path):
            made |= set(re.findall(rf"(?m)^(?:abbrev |pub |unfoldable )*({NAME})", read(path)))
            made |= set(re.findall(rf"\bc\.({NAME})", read(path)))
    clash = sorted((shared - kept) & made)
    if clash:
        print("the check's too, turned with ours:", ", ".join(clash))
    table = {n: spelled(n) for n in shared if spelled(n) != n}
    for path in texts(".antt", ".rt"):
        text = QUIET.sub(" ", read(path) if path.endswith(".antt") else ghost(read(path)))
        came = collections.defaultdict(set)
        for n in set(re.findall(NAME, text)):
            came[table.get(n, n)].add(n)
        for n, old in sorted(came.items()):
            if len(old) > 1:
                print(f"falls together in {path}: {', '.join(sorted(old))} -> {n}")
    print(f"{len(table)} names")
    if "--check" in argv:
        return 0
    turn(table, ["crates"])
    for path, names in sorted(inner.items()):
        own = {n: spelled(n) for n in names - shared - made if spelled(n) != n}
        if own:
            turn(own, [path])
    for path in texts(".rt"):
        text = read(path)
        out = re.sub(r"«([a-zA-Z_][a-zA-Z0-9_]*)»", lambda m: m[0] if m[1] in ("data", "record", "open", "ruleset") else m[1], text)
        if out != text:
            with open(path, "w", encoding="utf-8") as f:
                f.write(out)
    return 0


def turn(table, paths):
    with tempfile.NamedTemporaryFile("w", suffix=".tsv", delete=False, encoding="utf-8") as f:
        f.writelines(f"{a}\t{b}\n" for a, b in sorted(table.items()))
    subprocess.run([sys.executable, SNAKE, "--table", f.name, "--only", "antt,rt", *paths], check=True, stdout=subprocess.DEVNULL)
    os.unlink(f.name)


if __name__ == "__main__":
    raise SystemExit(main(sys.argv[1:]))
