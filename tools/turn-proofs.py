#!/usr/bin/env python3
"""Turns the Proof.antt files of a crate, in the form with `tie.close (tie.spec ..)`, into Invariants.antt and Answers.antt.

usage: tools/turn-proofs.py NAMES CRATE ..     NAMES is the folder that `rt names NAMES` wrote; CRATE the folder of a crate

An answer that says no more than `search rules`, and unfolds nothing, is left out, since the check finds it. What can't be turned is printed and its Proof.antt kept.
"""
import json
import os
import re
import sys

ID = r"[A-Za-zµμ_«»][\w\-'’₀-₉«»]*"
PATH = re.compile(r"(?<![\w.\-'«])(" + ID + r")((?:\.[\w\-'₀-₉«»]+)+)")


def norm(s):
    s = s.replace("-", "_").replace("«", "").replace("»", "").replace("_lem", "").lower()
    return re.sub(r"_([0-9]+)$", r"\1", s)


class Fn:
    def __init__(self, d):
        self.d = d
        self.places = {p[0]: (i, p) for i, p in enumerate(d["places"])}
        self.trouble = []

    def need(self, name):
        n = norm(name)
        forms = {n, n.replace("overflow_", "", 1), n.replace("slice_bounds_", "part_", 1)}
        for (old, new), at in zip(self.d["needs"], self.d["asked_at"]):
            if norm(old) in forms or norm(new) == n:
                return new, at[0]
        for (old, new), at in zip(self.d["needs"], self.d["asked_at"]):
            if norm(old).replace("slice_bounds_", "part_").replace("bounds_", "shared_slice_read_") in forms:
                return new, at[0]
        return None

    # what a path from a place is in an answer: (text, None) or (None, (place, parts)) where it stops short
    def walk(self, place, parts):
        parts = list(parts)
        while parts and parts[0] == "before":
            place = self.places[place][1][1]
            parts.pop(0)
            if place is None:
                self.trouble.append("before the start")
                return "c", None
        if not parts:
            return None, (place, [])
        index, p = self.places[place]
        step = p[2][0]
        first = parts[0]
        if first in ("args", "requires", "ranges", "well_formed", "type_inv"):
            return "c." + ".".join(parts), None
        if norm(first) == norm(step):
            arm = self.d["arms"][index]
            rest = parts[1:]
            if arm:
                if rest == [] or rest == ["given"]:
                    return None, (place, parts)
                best = None
                for field, old, path in arm[2]:
                    if norm(old) == norm(step) and path and rest[: len(path)] == path:
                        if best is None or len(path) > len(best[1]):
                            best = (field, path)
                if best:
                    return "c." + ".".join([arm[0], best[0], *rest[len(best[1]) :]]), None
                for field, old, path in arm[2]:
                    if norm(old) == norm(step) and not path:
                        return "c." + ".".join([arm[0], field, *rest]), None
            typed = self.d["typed"][index] if index < len(self.d["typed"]) else []
            if rest and rest[0] == "given":
                for var, known in typed:
                    if norm(known) == norm(step):
                        return "c." + ".".join(["type_inv", var, *rest[1:]]), None
            if rest == [] or rest == ["given"]:
                if any(norm(known) == norm(step) for _, known in typed):
                    return None, (place, parts)
            return "c." + ".".join([p[2][1], *rest]), None
        # a field of the place that the new form has under the step's own name
        self.trouble.append(f"at {place}: {'.'.join(parts)} (step {step})")
        return "c." + ".".join(parts), None

    def body(self, place, text):
        aliases = {"c": (place, [])}
        out, pos = [], 0
        let = re.compile(r"let\s+(" + ID + r")\s+=\s+(" + ID + r")((?:\.[\w\-'₀-₉«»]+)+)\s+in\s*")
        token = re.compile(let.pattern + "|" + PATH.pattern)
        for m in token.finditer(text):
            out.append(text[pos : m.start()])
            pos = m.end()
            if m.group(1):
                name, base, comps = m.group(1), m.group(2), m.group(3).split(".")[1:]
                if base in aliases:
                    p0, pre = aliases[base]
                    got, short = self.walk(p0, pre + comps)
                    if short:
                        aliases[name] = short
                        continue
                    out.append(f"let {name} = {got} in" + m.group(0)[len(m.group(0).rstrip()) :])
                    aliases.pop(name, None)
                else:
                    out.append(m.group(0))
                continue
            base, comps = m.group(4), m.group(5).split(".")[1:]
            if base in aliases:
                p0, pre = aliases[base]
                got, short = self.walk(p0, pre + comps)
                if short:
                    self.trouble.append(f"a step alone: {m.group(0)}")
                    got = m.group(0)
                out.append(got)
            else:
                out.append(m.group(0))
        out.append(text[pos:])
        return "".join(out)


def declarations(lines):
    """Groups of lines, each a declaration with the comment above it."""
    groups, now, comment = [], [], []
    for line in lines:
        if line.startswith("--"):
            if now:
                groups.append(now)
                now = []
            comment.append(line)
        elif line and not line[0].isspace() and line[0] not in ")" :
            head = line.split()[0]
            name = line.replace("pub ", "").replace("abbrev ", "").replace("unfoldable ", "").split()[0]
            if now and (head == "unfolding" or now_name(now) == name and not sig(line)):
                now.append(line)
            else:
                if now:
                    groups.append(now)
                now = comment + [line]
                comment = []
        elif now:
            now.append(line)
        elif line.strip():
            comment.append(line)
    if now:
        groups.append(now)
    return groups


def arguments(body):
    """What `tie.spec` is given: names, and groups in parentheses."""
    at = body.index("tie.spec") + len("tie.spec")
    got, depth, start = [], 0, None
    for i in range(at, len(body)):
        ch = body[i]
        if ch == "(":
            if depth == 0:
                start = i
            depth += 1
        elif ch == ")":
            depth -= 1
            if depth < 0:
                if start is not None:
                    got.append(body[start:i])
                return got
            if depth == 0:
                got.append(body[start : i + 1])
                start = None
        elif depth == 0:
            if ch.isspace():
                if start is not None:
                    got.append(body[start:i])
                    start = None
            elif start is None:
                start = i
    if start is not None:
        got.append(body[start:])
    return got


def sig(line):
    return re.match(r"(pub |abbrev |unfoldable )*(\S+)\s*:", line) is not None


def now_name(group):
    for line in group:
        if not line.startswith("--"):
            return line.replace("pub ", "").replace("abbrev ", "").replace("unfoldable ", "").split()[0]


def turn(path, d):
    fn = Fn(d)
    text = open(path, encoding="utf-8").read()
    module = os.path.dirname(path).split("/proofs/", 1)[1].replace("/", ".")
    crate = os.path.dirname(path).split("/crates/")[1].split("/")[0]
    uses, rest, head = [], [], []
    buffer = []
    seen_use = False
    for line in text.split("\n"):
        if line.startswith("use "):
            seen_use = True
            if "Statement.{statement}" in line or line.endswith(".Tie as tie") or ".Lts" in line:
                continue
            uses.append(line)
        elif not seen_use:
            head.append(line)
        else:
            rest.append(line)
    invariants, answers = [], []
    for g in declarations(rest):
        name = now_name(g)
        body = "\n".join(g).rstrip()
        code = [l for l in g if not l.startswith("--")]
        first = code[0]
        if "statement M" in body:
            given = arguments(body)
            loops = 2 * len(d["loops"])
            asked = given[loops:]
            goals = list(zip(d["needs"], d["asked_at"]))
            if any(a.startswith("(") for a in given) and len(asked) != len(goals):
                # goals that today's check asks no more were answered trivially
                asked = [a for a in asked if not re.match(r"\(\s*λ[^.]*\.\s*(search rules|search needs|tt|omega arith)\s*\)$", a)]
                goals = [g for g in goals if g[0][1].startswith("returns")]
            if any(a.startswith("(") for a in given) and len(asked) != len(goals):
                fn.trouble.append(f"{len(asked)} answers for {len(goals)} goals")
                continue
            for a, ((old, new), at) in zip(asked, goals):
                if not a.startswith("("):
                    continue
                lam = re.match(r"\(\s*λ\s+(\S+?)(\s+κs)?\.\s*(.*)\)$", a, re.S)
                if not lam:
                    if a != "(search rules)":
                        fn.trouble.append(f"an answer of another form: {new} {a[:80]}")
                    continue
                if lam.group(3).strip() in ("search rules", "search needs", "tt"):
                    continue
                if lam.group(1) != "c":
                    fn.trouble.append(f"an answer over {lam.group(1)}: {new} {a[:80]}")
                    continue
                unfold = [l for l in code if l.startswith("unfolding")]
                answers.append("\n".join([f"pub {new} : goal.{new}"] + unfold + [f"{new} c = {fn.body(at[0], lam.group(3))}"]))
            continue
        m = re.search(r":\s*tie\.(Need-\S+|invariant-\S+|decreases-\S+|Invariant-\S+)", "\n".join(code))
        if not m:
            if "tie." in body or re.search(r"\bLts\b", body):
                fn.trouble.append(f"a lemma that names tie: {name}")
            answers.append(body)
            continue
        what = m.group(1)
        comments = [l for l in g if l.startswith("--")]
        unfolding = [l for l in code if l.startswith("unfolding")]
        clause_at = next(i for i, l in enumerate(code) if i > 0 and not l.startswith("unfolding") and l.startswith(name + " ") and "=" in "\n".join(code[i:]) and not sig(l))
        clause = "\n".join(code[clause_at:]).rstrip()
        if what.startswith(("invariant-", "decreases-")):
            kind, loop = what.split("-", 1)
            found = [(l, dec) for l, dec in zip(d["loops"], d["changed"]) if norm(l[0][0]) == norm(loop)]
            if not found:
                fn.trouble.append(f"no loop {loop}")
                continue
            (names, variables), changed = found[0]
            left, right = clause.split("=", 1)
            params = left.split()[1:]
            wanted = [v for v in variables] + [v for v, ch in zip(variables, changed) if ch]
            table = {}
            if len(params) != len(wanted):
                fn.trouble.append(f"{what}: {len(params)} parameters for {len(wanted)}: {params} {wanted}")
                continue
            for i, (p, v) in enumerate(zip(params, wanted)):
                if i < len(variables):
                    table[p] = ("l.initial." if changed[i] else "l.") + v
                else:
                    table[p] = "l." + v
            right = re.sub(r"(?<![\w.\-'«])(" + ID + r")(?![\w\-'₀-₉»])", lambda k: table.get(k.group(1), k.group(0)), right)
            new = f"{kind}-{names[1]}"
            invariants.append("\n".join(comments + [f"abbrev pub {new} : goal.{new}"] + unfolding + [f"{new} l ={right}"]))
            continue
        asked = fn.need(what[len("Need-") :])
        left, right = clause.split("=", 1)
        if right.strip() in ("search rules", "search needs", "tt") and not unfolding:
            continue
        if not asked:
            fn.trouble.append(f"no goal for {what}: {right.strip()[:60]}")
            continue
        new, place = asked
        right = fn.body(place, right)
        answers.append("\n".join(comments + [f"pub {new} : goal.{new}"] + unfolding + [f"{new} c ={right}"]))
    folder = os.path.dirname(path)
    header = [l for l in head if l.strip() and l.strip() != "--"]

    def write(name, groups, kind, imported):
        body = "\n\n".join(groups)
        words = set(re.findall(r"[^\s(){},;.]+", body))
        kept = []
        for u in uses:
            m = re.match(r"use (.*)\.\{(.*)\}$", u)
            if not m:
                kept.append(u)
                continue
            names = [n.strip() for n in m.group(2).split(",")]
            good = []
            for n in names:
                n1 = n.split(" as ")[-1].strip()
                op = n1.replace("◌", " ").split()
                if n1 in words or any(n1 == w or n1 in re.split(r"[.]", w) for w in words) or ("◌" in n1 and all(o in body for o in op)):
                    good.append(n)
            if good:
                kept.append(f"use {m.group(1)}.{{{', '.join(good)}}}")
        kept.append(f"use Rattle.{crate}.proofs.{module}.{imported} as goal")
        with open(os.path.join(folder, name), "w", encoding="utf-8") as it:
            it.write("\n".join(header + kept) + "\n\n" + body + "\n")

    if fn.trouble:
        print(f"{path}: " + "; ".join(fn.trouble))
    if invariants:
        write("Invariants.antt", invariants, "i", "Given")
    if answers:
        write("Answers.antt", answers, "a", "Goals")
    os.remove(path)


def main():
    names = sys.argv[1]
    for crate in sys.argv[2:]:
        crate = os.path.abspath(crate)
        name = os.path.basename(crate)
        d = json.load(open(os.path.join(names, "crates", name, "names.json")))
        for folder, _, files in sorted(os.walk(os.path.join(crate, "proofs"))):
            if "Proof.antt" not in files:
                continue
            module = folder.split("/proofs/", 1)[1].replace("/", ".")
            key = f"Rattle-{name}-proofs.{module}.Lts"
            path = os.path.join(folder, "Proof.antt")
            if key not in d or "tie.close" not in open(path, encoding="utf-8").read():
                print(f"{path}: by hand")
                continue
            try:
                turn(path, d[key])
            except Exception as e:
                print(f"{path}: not turned: {e!r}")


main()
