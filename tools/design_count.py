#!/usr/bin/env python3
"""Counts the places of each point of docs/DESIGN-PASS.md in crates/*/src: python3 tools/design_count.py [-v] [FOLDER]"""
import collections
import glob
import os
import re
import sys

verbose = "-v" in sys.argv
arguments = [a for a in sys.argv[1:] if a != "-v"]
top = arguments[0] if arguments else "."

FUNCTION = re.compile(r"^( *)(?:pub )?(?:extern \"C\" )?fn (\w+)", re.M)


def functions(text):
    """Each function of a file: its name, its parameters, its clauses and its body."""
    for m in FUNCTION.finditer(text):
        end = text.find("\n" + m.group(1) + "}", m.end())
        if end < 0:
            continue
        whole = text[m.start():end]
        head, _, body = whole.partition("\n" + m.group(1) + "{\n")
        if not body:
            head, _, body = whole.partition("{\n")
        yield m.group(2), head, body, text.count("\n", 0, m.start()) + 1


def shape(body):
    """The body with its names of constants, its numbers, its texts and what is called left out."""
    body = re.sub(r"//.*", "", body)
    body = re.sub(r'b?"(?:[^"\\]|\\.)*"', "T", body)
    body = re.sub(r"b?'(?:[^'\\]|\\.)+'", "T", body)
    body = re.sub(r"\b0x[0-9a-f_]+|\b[0-9][0-9_]*", "N", body)
    body = re.sub(r"\b[A-Z][A-Z0-9_]+\b", "N", body)
    body = re.sub(r"\b[\w:]+(?=\()", "f", body)
    body = re.sub(r"\bSayAs::\w+|\bSign::\w+", "N", body)
    return re.sub(r"\s+", " ", body).strip()


places = collections.OrderedDict()


def place(point, kind, where):
    places.setdefault(point, collections.OrderedDict()).setdefault(kind, []).append(where)


bodies = collections.defaultdict(list)
requires = collections.defaultdict(list)
for path in sorted(glob.glob(os.path.join(top, "crates/*/src/**/*.rt"), recursive=True)):
    text = open(path).read()
    name = os.path.relpath(path, os.path.join(top, "crates"))
    for number, line in enumerate(text.split("\n"), 1):
        where = f"{name}:{number}: {line.strip()}"
        if re.match(r"^ *(Accepted|Nothing|NoRow|Refused\(Refusal\)),", line):
            place(1, "cases of an own Option or Result", where)
        if re.match(r"^ *(pub )?(refusal|found|yes|done): (u8|usize|bool),", line):
            place(1, "fields that are a refusal's number or a flag beside a value", where)
        if re.match(r"^(pub )?const \w+: (u8|usize|bool) = (\d+|true|false|\w+ \+ \d+);", line):
            place(1, "constants that may number kinds", where)
        if re.search(r"-> (u8|u16|u32|usize)\b", line) and re.search(r"\b(refusal|class|kind)\w*\(", line):
            place(1, "functions that answer a refusal's number", where)
        if re.match(r"^ *//.*\b(0|BAD|NO_BYTE|NONE|UNIT_COUNT|13) if\b|^ *//.*value is 0 if|^// The (sum|difference), or BAD", line):
            place(1, "comments that say a sentinel", where)
        if re.match(r"^ *(while |loop \{)", line):
            place(3, "while and loop", where)
        if re.match(r"^ *(pub )?fn (number|is|is_same|same|ends_same|fold_byte|flag|one_if|to_lower|larger_of|least|saturating_add|saturating_sub|copy|smaller_refusal|place_of|cursor_of|pair_of|number_at|head_of)\(", line):
            place(4, "functions that compare, convert or copy by hand", where)
        if re.search(r"\[(u8|usize|u32); |: \[0u8; ", line) and "fn main" not in line:
            place(6, "fixed arrays", where)
        if re.match(r"^ *match (test|class|k|case|lowered|interpretation|place|call)\b", line):
            place(7, "a match on which step to run", where)
    for f, head, body, number in functions(text):
        where = f"{name}:{number}: {f}"
        if body.count("\n") >= 1:
            bodies[shape(body)].append(where)
        parameters = head.split("requires")[0].split("ensures")[0]
        if re.search(r"store: &mut \[u8\]", parameters) and "table: &mut" in parameters:
            place(5, "functions of store and table", where)
        for m in re.finditer(r"requires(?: \w+)? \{(.*?)\}\n", head + "\n", re.S):
            for fact in re.split(r"\) × \(", m.group(1).strip().strip("()")):
                fact = re.sub(r"\b(cursor|s|ds|name|left)\b\.?(now|old)?", "x", fact)
                fact = re.sub(r"\(.*∷ \[\]\)", "x", re.sub(r"\s+", " ", fact)).replace("x.now", "x").strip("() ")
                requires[fact].append(where)
    for f, head, body, number in functions(text):
        if re.search(r"\b(i|k|n|at|left|case|done)\b (\+|-)= ", body) and re.search(r"while |loop \{", body):
            place(3, "of these, loops that count by hand", f"{name}:{number}: {f}")
for body, where in bodies.items():
    if len(where) > 1 and len(body) > 40:
        for w in where:
            place(2, "functions with the shape of another's body", w)
for fact, where in requires.items():
    if len(where) >= 3:
        for w in where:
            place(5, "requires that stand in three or more", f"{w}: {fact}")
for path in sorted(glob.glob(os.path.join(top, "crates/*/proofs/**/*.antt"), recursive=True)):
    name = os.path.relpath(path, os.path.join(top, "crates"))
    text = open(path).read()
    for m in re.finditer(r"^[\w-]+ (?:g )?c =\s+(search rules|omega arith|grind arith)$", text, re.M):
        place(8, "answers that are one bare tactic", f"{name}: {m.group(0)}")
    for number, line in enumerate(text.split("\n"), 1):
        if re.search(r"\b(true-raw|false-raw|branch-raw|in_default-own)\b", line):
            place(8, "lines that cite a name of the tool's own", f"{name}:{number}")
    if path.endswith("Answers.antt"):
        place(8, "files of answers", name)
for point in sorted(places):
    for kind, where in places[point].items():
        print(f"{point}  {len(where):4}  {kind}")
        if verbose:
            for w in where:
                print("          " + w)
