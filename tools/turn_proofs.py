#!/usr/bin/env python3
"""Turns the proofs that walk the code (Proof.antt) into Invariants.antt and Answers.antt.

usage: turn_proofs.py CRATE_FOLDER NAMES_JSON [FUNCTION..]

NAMES_JSON is what `rt check --generated DIR --old-names` writes in the crate. Answers that were only `search rules` are left out.
A line `-- look:` in what it writes is to be read by hand.
"""

import json
import os
import re
import sys

PART = r"[A-Za-z0-9_'-]+"
BACK = {
    "number_digits": "is_digits", "number_figure": "is_figure", "clear_percent": "is_percent", "clear_time": "is_time",
    "clear_meridiem": "is_meridiem", "clear_ordinal": "is_ordinal", "clear_unit": "is_unit", "clear_initials": "is_initials",
}


def norm(n):
    n = n.lower().replace("-", "_")
    n = BACK.get(n, n)
    return n[:-4] if n.endswith("_lem") else n


def split_args(s):
    """The arguments of a call, as text."""
    out, i = [], 0
    while i < len(s):
        if s[i].isspace():
            i += 1
            continue
        if s[i] in "([{":
            depth, j = 0, i
            instr = False
            while j < len(s):
                if s[j] == '"':
                    instr = not instr
                if not instr:
                    if s[j] in "([{":
                        depth += 1
                    if s[j] in ")]}":
                        depth -= 1
                        if depth == 0:
                            break
                j += 1
            out.append(s[i : j + 1])
            i = j + 1
        else:
            m = re.match(r"[^\s()]+", s[i:])
            out.append(m[0])
            i += len(m[0])
    return out


def declarations(text):
    """(comment lines, header lines, body) of each declaration at the margin."""
    lines = text.split("\n")
    decls, cur = [], []
    for l in lines:
        if l and not l[0].isspace() and l[0] != ")" :
            if cur and not all(re.match(r"--|\s*$", x) for x in cur):
                first = next(x for x in cur if not re.match(r"--|\s*$", x))
                name = re.match(rf"(?:(?:abbrev|unfoldable|pub) )*({PART})", first)
                this = re.match(rf"(?:(?:abbrev|unfoldable|pub) )*({PART})", l)
                goes_on = l.startswith("unfolding ") or (name and this and name[1] == this[1])
                if not goes_on:
                    decls.append(cur)
                    cur = []
        cur.append(l)
    if cur:
        decls.append(cur)
    return decls


class Function:
    def __init__(self, crate, folder, names):
        self.crate, self.folder, self.names = crate, folder, names
        self.path = os.path.join(folder, "Proof.antt")
        with open(self.path, encoding="utf-8") as f:
            self.text = f.read()
        self.places = {p[0]: p for p in names["places"]}
        self.by_new = dict(zip(names["places_by_name"], names["places"]))

    def turn_loop(self, k, args, body):
        """args: the names of the old invariant's parameters; body over l."""
        _, params = self.names["loops"][k]
        changed = self.names["changed"][k]
        new = []
        # The values when the loop began stand in their places, and the current ones of those that change come last.
        new = [("l.initial." if c else "l.") + p for p, c in zip(params, changed)]
        new += ["l." + p for p, c in zip(params, changed) if c]
        sub = {}
        for a, n in zip(args, new):
            if a != "_":
                sub[a] = n
        note = "" if len(args) == len(new) else f"-- look: {len(args)} names for {len(new)} values\n"
        def tok(m):
            return sub.get(m[0], m[0])
        body = re.sub(rf"(?<![\w'.\-{chr(0x2080)}-{chr(0x2089)}])[^\s(){{}}\[\],;.\"λ]+", tok, body)
        return note + body

    def arms_of(self, place):
        """(old step, old fields) -> (arm, new field), nearest first."""
        order = [p[0] for p in self.names["places"]]
        found = []
        while place in self.places:
            i = order.index(place)
            arm = self.names["arms"][i] if i < len(self.names["arms"]) else None
            if arm:
                found += [(norm(o), fs, arm[0], n) for n, o, fs in arm[2]]
            place = self.places[place][1]
        return sorted(found, key=lambda it: -len(it[1]))

    def steps_of(self, place):
        """old step name -> (new step name, fields), nearest first."""
        found = {}
        while place:
            p = self.places.get(place)
            if not p:
                break
            old, new = p[2]
            key = norm(old)
            if key and key not in found:
                found[key] = (new, {a: b for a, b in p[4]})
            place = p[1]
        return found

    def turn_body(self, body, place):
        aliases = {"c"}
        out = body
        # aliases: let X = c.before.before in
        while True:
            m = re.search(rf"let ({PART}) = ({PART})((?:\.before)*) in\s*", out)
            m = next((x for x in re.finditer(rf"let ({PART}) = ({PART})((?:\.before)*) in\s*", out) if x[2] in aliases), None)
            if not m:
                break
            aliases.add(m[1])
            out = out[: m.start()] + out[m.end() :]
        steps, arms = self.steps_of(place), self.arms_of(place)
        every = {}
        for p in self.names["places"]:
            if p[2][0]:
                every.setdefault(norm(p[2][0]), (p[2][1], {a: b for a, b in p[4]}))
        for (o, n), _ in self.names["loops"]:
            steps.setdefault(norm(o), (n, {}))
        look = []

        def path(m):
            parts = m[0].split(".")
            if parts[0] not in aliases:
                return m[0]
            rest = [p for p in parts[1:] if p != "before"]
            if not rest:
                return "c"
            key = norm(rest[0])
            if rest[0] in ("args", "requires", "well_formed", "ranges", "lifetimes"):
                return ".".join(["c"] + rest)
            for o, fs, arm, n in arms:
                if o == key and rest[1 : 1 + len(fs)] == fs:
                    return ".".join(["c", arm, n] + rest[1 + len(fs) :])
            got = steps.get(key) or every.get(key)
            if not got:
                look.append(rest[0])
                return ".".join(["c"] + rest)
            new, fields = got
            rest[0] = new
            if len(rest) > 1:
                if rest[1] in fields:
                    rest[1] = fields[rest[1]]
                elif rest[1] == "fact":
                    rest[1] = "true"
            return ".".join(["c"] + rest)

        out = re.sub(rf"(?<![\w'.-]){PART}(?:\.{PART})*", path, out)
        note = f"-- look: {', '.join(look)}\n" if look else ""
        return note, out

    def aligned(self, args, needs, answers):
        """The answers that stand for today's goals, where fewer are asked: only answers by search are left out."""
        def trivial(a):
            return re.fullmatch(r"\(λ [^.]*\. *search rules\)", re.sub(r"\s+", " ", a)) is not None

        def score(a, n):
            if a in answers:
                return 10 if norm(a) == norm(n[0]) else (5 if a.startswith("returns") and n[0].startswith("returns") else 0)
            if trivial(a):
                return -1 if n[0].startswith("returns") else (1 if "κs" in a and "requires" in n[0] else 0)
            return 3 if n[0].startswith("returns") else 0

        best = {}

        def go(i, j):
            if j == len(needs):
                return (0, []) if all(trivial(a) for a in args[i:]) else None
            if len(args) - i < len(needs) - j:
                return None
            if (i, j) in best:
                return best[i, j]
            got = go(i + 1, j + 1)
            one = (got[0] + score(args[i], needs[j]), [args[i]] + got[1]) if got else None
            if trivial(args[i]):
                two = go(i + 1, j)
                if two and (not one or two[0] > one[0]):
                    one = two
            best[i, j] = one
            return one

        got = go(0, 0)
        return got[1] if got else args

    def run(self):
        decls = declarations(self.text)
        head, inv, helpers, answers, spec = [], [], [], {}, None
        comment = []
        for d in decls:
            code = [l for l in d if l.strip() and not l.startswith("--")]
            if not code:
                head += [l for l in d if l.strip()]
                continue
            if all(l.startswith(("use ", "pub use ")) for l in code):
                head += [l for l in d if l.strip() and not re.search(r"\.Statement\.\{|\.Tie as tie|Author\.Rules", l)]
                continue
            m = re.match(rf"(?:(?:abbrev|unfoldable|pub) )*({PART}) :\s*(.*)", code[0])
            name = m[1] if m else None
            if name and norm(name).endswith("_spec") and "statement" in code[0]:
                spec = d
            elif name and re.match(r"tie\.", m[2]):
                answers[name] = d
            else:
                helpers.append(d)
        text = "\n".join(spec) if spec else ""
        m = re.search(r"tie\.spec\b", text)
        if not m:
            return None, None, "no tie.spec"
        depth, j = 1, m.end()
        while j < len(text) and depth:
            depth += {"(": 1, ")": -1}.get(text[j], 0)
            j += 1
        args = split_args(text[m.end() : j - 1])
        n_loops = len(self.names["loops"])
        inv_out = []
        invs = []
        while args and args[0] in answers and re.search(r": tie\.(invariant|decreases)", "\n".join(answers[args[0]])):
            invs.append(args.pop(0))
        for a in invs:
            d = answers.pop(a)
            kind = "invariant" if re.search(r": tie\.invariant", "\n".join(d)) else "decreases"
            code = "\n".join(l for l in d if not l.startswith("--"))
            cm = "\n".join(l for l in d if l.startswith("--"))
            tm = re.search(r": tie\.(\S+)", code)
            old = tm[1]
            stem = re.sub(r"^(invariant|decreases)-", "", old)
            k = next((i for i, l in enumerate(self.names["loops"]) if norm(l[0][0]) == norm(stem)), None)
            bm = re.search(rf"(?m)^{re.escape(a)} (?!:)([^=:\n]*?) ?=(.*)", code, re.S)
            if k is None or not bm:
                inv_out.append(f"-- look: {old}\n{code}")
                continue
            new = f"{kind}-{self.names['loops'][k][0][1]}"
            body = self.turn_loop(k, bm[1].split(), bm[2])
            unf = re.search(r"(?m)^unfolding .*$", code)
            inv_out.append((cm + "\n" if cm else "") + f"abbrev pub {new} : goal.{new}\n" + (unf[0] + "\n" if unf else "") + f"{new} l ={body.rstrip()}")
        needs = self.names["needs"]
        at = self.names["asked_at"]
        whole = re.search(r"(?m)^unfolding .*$", text)
        whole = whole[0] + "\n" if whole else ""
        out, problems = [], []
        if len(args) != len(needs):
            problems.append(f"{len(args)} answers for {len(needs)} goals")
        if len(args) > len(needs):
            args = self.aligned(args, needs, answers)
        for i, (arg, need) in enumerate(zip(args, needs)):
            place = at[i][0] if i < len(at) and at[i] else None
            unf, cm = whole, ""
            if arg in answers:
                d = answers[arg]
                code = "\n".join(l for l in d if not l.startswith("--"))
                cm = "\n".join(l for l in d if l.startswith("--"))
                u = re.search(r"(?m)^unfolding .*$", code)
                unf = u[0] + "\n" if u else ""
                bm = re.search(rf"(?m)^{re.escape(arg)} (?!:)([^=:\n]*?) ?=(.*)", code, re.S)
                binders, body = bm[1].split(), bm[2]
            else:
                inner = arg[1:-1] if arg.startswith("(") else arg
                bm = re.match(r"\s*λ ([^.]*)\.(.*)", inner, re.S)
                if not bm:
                    problems.append(f"argument {i}: {arg[:60]}")
                    continue
                binders, body = bm[1].split(), bm[2]
            flat = re.sub(r"\s+", " ", body).strip()
            if not unf and re.fullmatch(r"search rules|omega arith|\(search rules, refl\)|\(search rules, search rules\)|refl", flat):
                continue
            if binders[:1] != ["c"]:
                problems.append(f"argument {i}: binders {binders}")
            note, new_body = self.turn_body(body, place)
            extra = " ".join(b for b in binders[1:] if b != "κs" and re.search(rf"(?<![\w']){re.escape(b)}(?![\w'])", body))
            name = need[1]
            b = new_body.rstrip()
            b = b if b.startswith("\n") else " " + b.strip()
            out.append((cm + "\n" if cm else "") + note + f"pub {name} : goal.{name}\n{unf}{name} c{' ' + extra if extra else ''} ={b}")
        # helper declarations that are answers used elsewhere
        left = "\n".join("\n".join(d).strip("\n") + "\n" for d in helpers)
        return inv_out, (out, left, head), problems


def goal_path(crate, folder, root):
    return ".".join(["Rattle", crate, "proofs"] + os.path.relpath(folder, root).split(os.sep))


def main():
    crate_dir, names_path, *only = sys.argv[1:]
    crate = os.path.basename(os.path.abspath(crate_dir))
    with open(names_path) as f:
        names = json.load(f)
    root = os.path.join(crate_dir, "proofs")
    for folder, _, fs in sorted(os.walk(root)):
        if "Proof.antt" not in fs:
            continue
        rel = os.path.relpath(folder, root)
        fn = rel.replace(os.sep, ".")
        if only and fn not in only and os.path.basename(fn) not in only:
            continue
        key = f"Rattle-{crate}-proofs.{fn}.Lts"
        if key not in names:
            print(f"{fn}: no names ({key})")
            continue
        f = Function(crate, folder, names[key])
        try:
            inv, ans, problems = f.run()
        except Exception as e:
            print(f"{fn}: FAILED {type(e).__name__} {e}")
            continue
        if inv is None:
            print(f"{fn}: {problems}")
            continue
        path = goal_path(crate, folder, root)
        out, left, head = ans
        uses = [l for l in head if l.startswith(("use ", "pub use "))]
        comments = [l for l in head if l.startswith("--")]
        if inv:
            body = "\n\n".join(inv)
            with open(os.path.join(folder, "Invariants.antt"), "w", encoding="utf-8") as g:
                g.write("\n".join(comments + uses + [f"use {path}.Given as goal", "", body, ""]))
        if out or left.strip():
            rules = ["use borrow.Author.Rules.{rules}"]
            with open(os.path.join(folder, "Answers.antt"), "w", encoding="utf-8") as g:
                g.write("\n".join((comments if not inv else []) + uses + rules + [f"use {path}.Goals as goal", ""] + ([left] if left.strip() else []) + ["\n\n".join(out), ""]))
        os.remove(f.path)
        looks = sum(o.count("-- look:") for o in out) + sum(i.count("-- look:") for i in inv)
        print(f"{fn}: {len(inv)} invariants and measures, {len(out)} answers" + (f", {looks} to look at" if looks else "") + (f"; {problems}" if problems else ""))


if __name__ == "__main__":
    main()
