#!/usr/bin/env python3
"""Spells the repository's own definitions and lemmas as the library spells its words.

usage: python3 tools/respell.py [--check] [--names]      at the top of the repository, after /opt/rattle/port/port.py

A function, a lemma, a constructor and a label go from kebab case to snake case, a type and a fact to camel case, in
specs/, proofs/, the clauses of src/ and the code spans of README.md and docs/. A name that Rattle makes of a function's
code (a goal, a step) stays, and so does every name of src/. A definition may then be spelled like the function that it
describes, as words of the library are. --check writes nothing, --names lists the names. It stops before it writes if
two names of definitions would fall together.
"""

import collections
import pathlib
import re
import sys

WORD = re.compile(r"[^\s(){}.;,@\"«»]+")
QUIET = re.compile(r'"(?:[^"\\\n]|\\.)*"|(?<![^\s(){}.;,@"«»])--[^\n]*|\{-.*?-\}', re.S)
RUST_QUIET = re.compile(r'//[^\n]*|b?"(?:[^"\\]|\\.)*"', re.S)
NEVER = re.compile(r"(?!)")
SPAN = re.compile(r"`[^`\n]*`")
KIND = re.compile(r"^\s*(?:(?:abbrev|unfoldable|pub|mutual)\s+)*(?:record|data)\s+(?:pub\s+)?(\S+)", re.M)
DECLARED = re.compile(r"^\s*(?:(?:abbrev|unfoldable|pub)\s+)*([^\s(){}.;,@\"«»:]+)(?: [({][^(){}\n]*[)}])* : (?!goal\.)", re.M)
LOCAL = re.compile(r"(?<![^\s(])(?:let|in) +([^\s(){}.;,@\"«»:=]+)(?: : [^\n]*?)? =(?!\S)")
FIELD = re.compile(r"^\s+(?:pub\s+)?([^\s(){}.;,@\"«»:]+) : ", re.M)
GOAL = re.compile(r"^\s*(?:(?:abbrev|unfoldable|pub)\s+)*(\S+) : goal\.", re.M)
# Variables of definitions.
VARIABLES = {"on-zero", "zero-cost"}
GHOST_USE = re.compile(r"ghost use [^;]*;")


def respelled(name):
    if name[0].isupper():
        return "".join(part[:1].upper() + part[1:] for part in name.split("-"))
    return name.replace("-", "_")


def quiet(text, pattern):
    return pattern.sub(lambda m: " " * len(m[0]), text)


def own_names(files):
    names, goals = set(), set()
    for text in files.values():
        text = quiet(text, QUIET)
        goals.update(GOAL.findall(text))
        for pattern in (KIND, DECLARED, LOCAL, FIELD):
            names.update(pattern.findall(text))
    names |= VARIABLES
    return {n for n in names if re.fullmatch(r"[A-Za-z][\w']*(?:-[\w']+)+", n)} - goals


def turned(text, table, pattern, where, seen):
    kept = [(m.start(), m.end()) for m in pattern.finditer(text)]
    out, at, k = [], 0, 0
    for m in WORD.finditer(text):
        while k < len(kept) and kept[k][1] <= m.start():
            k += 1
        if k < len(kept) and kept[k][0] < m.end():
            continue
        new = table.get(m[0])
        if new is None:
            continue
        if text[: m.start()].endswith(("goal.", "c.")):
            seen.append(f"{where}: {text[m.start() - 5 : m.end()]}")
            continue
        out.append(text[at : m.start()] + new)
        at = m.end()
    return "".join(out) + text[at:]


def main(argv):
    top = pathlib.Path(".")
    antt = {p: p.read_text() for p in sorted(top.glob("crates/*/specs/**/*.antt")) + sorted(top.glob("crates/*/proofs/**/*.antt")) if "out" not in p.parts}
    rust = {p: p.read_text() for p in sorted(top.glob("crates/*/src/**/*.rt"))}
    prose = {p: p.read_text() for p in [top / "README.md", *sorted(top.glob("docs/*.md"))]}
    table = {n: respelled(n) for n in own_names(antt)}
    backwards = collections.defaultdict(set)
    for old, new in table.items():
        backwards[new].add(old)
    meets = [f"{new} would stand for {sorted(olds)}" for new, olds in backwards.items() if len(olds) > 1]
    for p, text in [*antt.items(), *rust.items()]:
        text = quiet(text, QUIET) if p.suffix == ".antt" else " ".join(GHOST_USE.findall(text))
        words = {m[0] for m in WORD.finditer(text) if not text[: m.start()].endswith(".")}
        meets += [f"{p}: {old} would meet {table[old]}" for old in sorted(words) if old in table and table[old] in words]
    seen = []
    new = {p: turned(t, table, QUIET, p, seen) for p, t in antt.items()}
    new |= {p: turned(t, table, RUST_QUIET, p, seen) for p, t in rust.items()}
    new |= {p: SPAN.sub(lambda m: "`" + turned(m[0][1:-1], table, NEVER, p, seen) + "`", t) for p, t in prose.items()}
    print(f"{len(table)} names, {sum(new[p] != t for p, t in [*antt.items(), *rust.items(), *prose.items()])} files")
    for line in seen:
        print("stays: " + line)
    for line in meets:
        print("meets: " + line)
    if "--names" in argv:
        for old in sorted(table):
            print(f"{old} {table[old]}")
    if meets or "--check" in argv:
        return 1 if meets else 0
    for p, text in new.items():
        p.write_text(text)
    return 0


sys.exit(main(sys.argv[1:]))
