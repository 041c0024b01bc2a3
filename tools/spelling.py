#!/usr/bin/env python3
"""Brings the repository's own definitions and lemmas to the spelling of today's Rattle, after port.py of the kit has run.

usage: tools/spelling.py [--list]

A definition's name is in snake case. In a lemma's name the dashes stay where all its parts are names of definitions; plain words are joined
by underscores. The proof of a function f is f_spec. Names that would fall together in one file keep their dashes. Texts of must-fail edits,
clauses and imports of the sources, and names in backquotes of the pages follow. With --list it prints the names and changes nothing.
"""

import os
import re
import subprocess
import sys

DELIMITERS = r"\s(){}\[\].,;@\"«»`|"
TOKEN = re.compile(rf"--[^\n]*|[^{DELIMITERS}]+")
DECLARED = re.compile(r"^\s*(?:(?:abbrev|unfoldable|pattern|pub|record|data)\s+)*([^\s:(){}.,;]+)\s*(?:(?:\([^()]*\)|\{[^{}]*\})\s*)*:\s")
CAMEL = re.compile(r"[a-z][A-Za-z0-9₂']*[a-z0-9][A-Z][A-Za-z0-9₂']*|[a-z]+[A-Z][A-Za-z0-9₂']*")
WORDS = {"add", "mul", "sub", "mod", "div", "length", "append", "take", "drop", "zero", "suc", "map", "sum", "xor", "true", "false"}
# Names that Rattle makes for the goals and steps of a function.
MADE = re.compile(
    r"(invariant|decreases|loop|returns|bounds|cast|add|sub|mul|shr|shl|rem|div)-|.*-(result|requires|spec|init|preserved|smaller|after|place)(-\d+)?$"
)


def files():
    out = subprocess.run(["git", "ls-files", "-z"], capture_output=True, check=True).stdout.decode().split("\0")
    return [f for f in out if f]


def read(path):
    with open(path, encoding="utf-8", newline="") as it:
        return it.read()


def of_function(path):
    """Whether a file belongs to the proof of one function."""
    return path.endswith(("/Proof.antt", "/Invariants.antt", "/Answers.antt"))


def snake(part):
    if not CAMEL.fullmatch(part):
        return part
    return re.sub(r"(?<=[a-z0-9])(?=[A-Z])", "_", part).lower()


def tokens(text):
    return [t for t in TOKEN.findall(text) if not t.startswith("--")]


def main():
    paths = files()
    antt = {p: read(p) for p in paths if p.startswith("crates/") and p.endswith(".antt")}
    rust = {p: read(p) for p in paths if p.startswith("crates/") and p.endswith(".rt")}
    functions = {m for t in rust.values() for m in re.findall(r"\bfn\s+(\w+)", t)}
    declared, definitions = set(), set()
    for path, text in antt.items():
        for line in text.split("\n"):
            if line.lstrip().startswith("--"):
                continue
            found = DECLARED.match(line)
            if found:
                name = found.group(1)
                declared.add(name)
                if "/specs/" in path and "/laws/" not in path:
                    definitions.add(name)
    by_file = {p: set(tokens(t)) for p, t in {**antt, **rust}.items()}
    names = {}
    for text in antt.values():
        for token in tokens(text):
            new = "-".join(snake(p) for p in token.split("-"))
            if new != token:
                names[token] = new
    words = WORDS | {names.get(n, n) for n in definitions if "-" not in n}
    for name in sorted(declared):
        if "-" not in name or not re.match(r"[a-z]", name):
            continue
        parts = names.get(name, name).split("-")
        if any(not re.fullmatch(r"[\w']+", p) for p in parts):
            continue
        if MADE.match(name):
            continue
        new = ("-" if all(p in words for p in parts) else "_").join(parts)
        if new != name:
            names[name] = new
    # Names that would fall together where both are seen.
    apart = set()
    for name, new in sorted(names.items()):
        for path, seen in by_file.items():
            others = {n for n in seen if n != name and names.get(n, n) == new}
            if name in seen and others:
                apart.add((name, new, path, tuple(sorted(others))))
    for name, new, path, others in sorted(apart):
        if "-" in name:
            names[name] = "-".join(snake(p) for p in name.split("-"))
            if names[name] == name:
                del names[name]
    if "--list" in sys.argv:
        for name, new in sorted(names.items()):
            print(name, new)
        for it in sorted(apart):
            print("together:", *it)
        return
    proofs = {f.replace("_", "-") + "-spec": f + "_spec" for f in functions}

    def turned(text, own):
        def one(found):
            token = found.group(0)
            if token.startswith("--"):
                return token
            before = text[: found.start()]
            if re.search(r"\b(tie|goal)\.$", before[-6:]):
                return token
            if own and token.lstrip("+") in proofs:
                return proofs[token.lstrip("+")]
            return names.get(token, token)

        return TOKEN.sub(one, text)

    for path in paths:
        if path.startswith("tools/") or path.startswith("bindings/") or not os.path.isfile(path) or os.path.islink(path):
            continue
        if path.endswith(".antt"):
            new = turned(antt[path], of_function(path))
        elif path.endswith(".rt"):
            new = turned_source(antt, rust[path], turned)
        elif path.endswith(".edit"):
            new = turned(read(path), False)
        elif path.endswith(".md"):
            new = re.sub(r"`[^`\n]+`", lambda f: turned(f.group(0), True), read(path))
        else:
            continue
        if new != (antt.get(path) or rust.get(path) or read(path)):
            with open(path, "w", encoding="utf-8", newline="") as it:
                it.write(new)
            print(path)


def turned_source(_, text, turned):
    """Imports of ghosts and clauses; the code's own names stay."""
    out, clause, depth = [], False, 0
    for line in text.split("\n"):
        head = re.match(r"\s*(ghost use|requires|ensures|ghost)\b", line)
        if head or depth > 0:
            out.append(turned(line, False))
            depth += line.count("{") - line.count("}")
            if depth < 0:
                depth = 0
        else:
            out.append(line)
    return "\n".join(out)


if __name__ == "__main__":
    main()
