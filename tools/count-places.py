#!/usr/bin/env python3
"""Counts the places of docs/DESIGN-PASS.md's points 1, 3, 4, 5, 6 and 7 in crates/*/src, and lists each; tools/twins.py does so for point 2.

tools/count-places.py [DIR]
"""
import collections
import glob
import itertools
import re
import sys

TOP = sys.argv[1] if len(sys.argv) > 1 else "."
FILES = {it[len(TOP) + 1 :]: open(it, encoding="utf-8").read() for it in sorted(glob.glob(f"{TOP}/crates/*/src/*.rt"))}


def grep(pattern):
    return [
        f"{path}:{at}: {line.strip()}"
        for path, text in FILES.items()
        for at, line in enumerate(text.split("\n"), 1)
        if re.search(pattern, line) and not line.strip().startswith("//")
    ]


def functions(text):
    for found in re.finditer(r"fn (\w+)(?:<[^>]*>)?\(([^)]*)\)[^\n{;]*(?:\{|\n((?: +(?:requires|ensures).*\n)*))", text):
        parameters = [it.split(":")[0].replace("mut ", "").strip() for it in found[2].replace("\n", " ").split(",") if ":" in it]
        yield found[1], parameters, found[3] or ""


def enums_like_result():
    for path, text in FILES.items():
        for found in re.finditer(r"enum (\w+) \{\n((?:    .*\n)+?)\}", text):
            variants = [it.strip().rstrip(",") for it in found[2].split("\n") if it.strip() and not it.strip().startswith("//")]
            if len(variants) == 2 and any("(" in it for it in variants):
                yield f"{path}: enum {found[1]} {{ {', '.join(variants)} }}"


def facts():
    where = collections.defaultdict(set)
    for path, text in FILES.items():
        for name, _, clauses in functions(text):
            for clause in re.findall(r"requires(?: \w+)? \{ (.*) \}", clauses):
                for fact in clause.split(" × "):
                    where[(path.split("/")[1], fact.strip("()"))].add(name)
    for (crate, fact), names in sorted(where.items()):
        if len(names) >= 3:
            yield f"{crate}: {fact}: {', '.join(sorted(names))}"


def travelling(least=6):
    where = collections.defaultdict(set)
    for path, text in FILES.items():
        for name, parameters, _ in functions(text):
            for pair in itertools.combinations(parameters, 2):
                if "rt" not in pair:
                    where[(path.split("/")[1], pair)].add(name)
    for (crate, pair), names in sorted(where.items(), key=lambda it: -len(it[1])):
        if len(names) >= least:
            yield f"{crate}: {pair[0]}, {pair[1]}: {len(names)} functions"


POINTS = {
    "1 an enum of two variants with a value, as Option and Result are": list(enums_like_result()),
    "1 a struct's flag or answer with its value beside it": grep(r"^    (pub )?(answer|given|has|more|ok): "),
    "1 a number for a kind or a refusal": grep(r"fn (\w+_)?number\(\w+: \w+\) -> u8|fn number\(self\)|\.number\(\) [!=]=|fn \w+\(byte: u8\) -> [A-Z]\w+$"),
    "3 a loop that counts by hand": grep(r"^ *while "),
    "4 a conversion by hand": grep(r"fn (\w+_number\(\w+: [A-Z]\w+\) -> u8|answered|wrapped|command_id|fault_code|hw_type|qml_hw|raw_of|reply_of|fw_version_of)\b"),
    "5 a fact in the requires of three functions or more": list(facts()),
    "5 two parameters that travel together through six functions or more": list(travelling()),
    "6 a buffer with its length beside it, as parameters": grep(r"fn .*\w+: &(mut )?\[u8\].*\b(used|n|len|left): usize"),
    "7 a match on a kind that picks a table": grep(r"=> \w+\(.*&[A-Z_]+_TABLE"),
}

for name, places in POINTS.items():
    print(f"{name}: {len(places)}")
    for place in places:
        print(f"    {place}")
