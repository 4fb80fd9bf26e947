#!/usr/bin/env python3
"""Gives the repository's own definitions, constructors, fields and lemmas the spelling of today's library: words in snake case.

usage: respell_names.py [--dry] [ROOT]

Run once, after the toolchain's port.py. A name is the repository's own if a file of specs/ or a lemma file of proofs/ declares it.
It rewrites .antt files, the clauses and ghost lines of .rt files, must-fail edits, and names in backticks in docs/ and README.md.
Names of functions, exported C names and text in quotes stay. It stops, with nothing written, where two names would fall together
in one file; BY_HAND has the names that would.
"""

import os
import re
import sys

TOKEN = re.compile(r'[^\s(){}\[\],;."`|\\]+')
WORD = r"[A-Za-z0-9_'-]+"
# Two names that would be one: the second gets a name of its own.
BY_HAND = {
    "time-parts": "parts_of_time",
    "no-time-parts": "no_parts_of_time",
    "is_number": "clear_number",
    "is-percent": "clear_percent",
    "is-time": "clear_time",
    "is-meridiem": "clear_meridiem",
    "is-ordinal": "clear_ordinal",
    "is-unit": "clear_unit",
    "is-initials": "clear_initials",
    "is_word": "clear_word",
    "last_word": "last_word_lem",
    "but_last": "but_last_lem",
    "is-digits": "number_digits",
    "is-figure": "number_figure",
}


# Words that other crates use otherwise: they are turned in these alone.
ONLY_IN = {"is_number": "clear|decoder", "is_word": "clear|decoder", "last_word": "decoder", "but_last": "decoder"}


def snake(name):
    s = re.sub(r"(?<=[a-z0-9])(?=[A-Z])", "_", name)
    s = re.sub(r"(?<=[A-Z])(?=[A-Z][a-z])", "_", s)
    return s.lower().replace("-", "_")


def files(root):
    for top in ("crates", "docs", "tests"):
        for folder, dirs, names in os.walk(os.path.join(root, top)):
            dirs[:] = sorted(d for d in dirs if d not in ("out", "data", ".git"))
            for n in sorted(names):
                yield os.path.join(folder, n)
    yield os.path.join(root, "README.md")


def read(path):
    with open(path, encoding="utf-8") as f:
        return f.read()


def made_by_rattle(path):
    """Whether the file is a function's own proof, where the names at the margin are goals."""
    return re.search(r"/proofs/.*(Proof|Answers|Invariants)\.antt$", path)


DECLARED = re.compile(rf"^(?:\s*)(?:(?:abbrev|unfoldable|pub|open|private) )*(?:data |record |type )?({WORD}) ?(?:\([^:]*)?(?:\{{[^:]*)?:(?= |$)", re.M)
SHORT = re.compile(rf"^[ ]*(?:(?:abbrev|unfoldable|pub) )*({WORD}) :(?= )", re.M)


def declared(path):
    text = read(path)
    text = re.sub(r"--.*", "", text)
    found = set()
    for rx in (DECLARED, SHORT):
        found |= set(rx.findall(text))
    return found


def spelled(name, every):
    """A lemma that would have its function's name gets `_lem`, as in the library."""
    if name in BY_HAND:
        return BY_HAND[name]
    if not re.match(r"[a-z]", name):
        return name
    others = [n for n in every if n != name and snake(n) == snake(name)]
    return snake(name) + ("_lem" if "-" in name and others else "")


def own_names(root):
    found = {}
    for p in files(root):
        if not p.endswith(".antt"):
            continue
        if made_by_rattle(p):
            for n in declared(p) - set(re.findall(rf"({WORD}) : tie\.", read(p))):
                if not re.match(r"(invariant|decreases|loop|returns|tie|overflow|bounds|measure)\b", n) and "requires" not in n:
                    found.setdefault(n, p)
        else:
            for n in declared(p):
                found.setdefault(n, p)
    groups = {}
    for n in found:
        groups.setdefault(snake(n), []).append(n)
    new = {n: spelled(n, groups[snake(n)]) for n in found}
    return {a: b for a, b in new.items() if a != b}


def turned(path, text, names):
    """The text under the new names, and the pairs of names that fall together in it."""
    met, plain = {}, set()

    def token(m):
        t = m[0]
        if t in names and t not in lent and (t not in ONLY_IN or re.search(rf"crates/({ONLY_IN[t]})/", path)):
            met[t] = names[t]
            return names[t]
        if m.string[m.start() - 1 : m.start()] != "." and not line_now[0].lstrip().startswith(("--", "//")) and not (re.match(r"\s*(pub |ghost )*use ", line_now[0]) and m.string[m.end() : m.end() + 1] == "."):
            plain.add(t)
        return t

    line_now = [""]
    # What the file takes from the toolchain's libraries keeps its spelling.
    lent = set()
    for m in re.finditer(r"use (?!Rattle\.(?!std\b))[^{;\n]*\{([^}]*)\}", text):
        lent |= {w for it in m[1].split(",") for w in it.split()}

    def piece(line):
        line_now[0] = line
        if path.endswith((".antt", ".edit")) and not line.lstrip().startswith("--"):
            return "".join(p if i % 2 else TOKEN.sub(token, p) for i, p in enumerate(re.split(r'("(?:[^"\\]|\\.)*")', line)))
        return TOKEN.sub(token, line)

    if path.endswith(".rt"):
        out, depth = [], 0
        for line in text.split("\n"):
            clause = re.match(r"\s*(ghost|requires|ensures)\b", line) or depth
            if clause:
                depth = max(0, depth + line.count("{") - line.count("}")) if re.match(r"\s*(ghost|requires|ensures)\b", line) or depth else 0
                out.append(piece(line))
            else:
                out.append(re.sub(r"`[^`]*`", lambda m: TOKEN.sub(token, m[0]), line) if line.lstrip().startswith("//") else line)
        new = "\n".join(out)
    elif path.endswith(".md"):
        new = re.sub(r"`[^`\n]*`", lambda m: TOKEN.sub(token, m[0]), text)
    else:
        new = "\n".join(piece(l) for l in text.split("\n"))
    back = {}
    for a, b in met.items():
        back.setdefault(b, set()).add(a)
    clash = [(b, sorted(a)) for b, a in back.items() if len(a) > 1 or b in plain]
    return new, clash


def main():
    dry = "--dry" in sys.argv
    rest = [a for a in sys.argv[1:] if a != "--dry"]
    root = rest[0] if rest else "."
    names = own_names(root)
    bad, out = [], {}
    for p in files(root):
        if not p.endswith((".antt", ".rt", ".edit", ".md", "scope.sh")):
            continue
        text = read(p)
        new, clash = turned(p, text, names)
        if p.endswith((".antt", ".rt")):
            bad += [(p, c) for c in clash]
        if new != text:
            out[p] = new
    for p, c in bad:
        print("falls together:", p, c)
    print(len(names), "names,", len(out), "files")
    if dry:
        for a, b in sorted(names.items()):
            print(a, "->", b)
        return 0
    if bad:
        return 1
    for p, t in out.items():
        with open(p, "w", encoding="utf-8") as f:
            f.write(t)
    return 0


if __name__ == "__main__":
    raise SystemExit(main())
