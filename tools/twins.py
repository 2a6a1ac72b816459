#!/usr/bin/env python3
"""Lists functions of crates/*/src whose bodies are the same but for names, types, numbers and texts, and types whose declarations are.

tools/twins.py [DIR]: a line for each group, with the places. Comments and contracts are left out. Short bodies (below LEAST tokens) are left out too:
two calls with an argument each are alike by chance.
"""
import glob
import re
import sys

LEAST = 20
TOKEN = re.compile(r'b?"(?:\\.|[^"\\])*"|b?\'(?:\\.|[^\'\\])\'|\w+|[^\s\w]')
KEPT = set("as break const continue else enum false fn for if impl in let loop match mut pub return self Self struct true where while".split())


def shape(text):
    """The tokens, each other name by the place where it first came."""
    seen = {}
    out = []
    for it in TOKEN.findall(re.sub(r"//.*", "", text)):
        if it[0].isdigit() or it[0] in "\"'" or it[:2] in ('b"', "b'"):
            out.append("0")
        elif re.match(r"\w", it) and it not in KEPT:
            out.append(f"n{seen.setdefault(it, len(seen))}")
        elif it != ",":
            out.append(it)
    return tuple(out)


def items(path):
    """Each function's body and each type's declaration, with its name and its line."""
    lines = open(path, encoding="utf-8").read().split("\n")
    for at, line in enumerate(lines):
        found = re.match(r"( *)(?:pub(?:\(crate\))? )?(fn|struct|enum) (\w+)", line)
        if not found or line.rstrip().endswith((";", "}")):
            continue
        end = next((k for k in range(at, len(lines)) if lines[k] == found[1] + "}"), None)
        if end is None:
            continue
        if found[2] == "fn":
            start = next(k for k in range(at, end + 1) if lines[k].rstrip().endswith("{") and "ensures" not in lines[k] and "requires" not in lines[k])
            if lines[start].strip() != "{" and start != at:
                start = at
            yield found[3], at + 1, "\n".join(lines[start : end + 1]) if start != at else "{" + line.split("{", 1)[-1] + "\n".join(lines[at + 1 : end + 1])
        else:
            yield found[3], at + 1, "\n".join(["{", *lines[at + 1 : end + 1]])


def main():
    top = sys.argv[1] if len(sys.argv) > 1 else "."
    groups = {}
    for path in sorted(glob.glob(f"{top}/crates/*/src/*.rt")):
        for name, line, body in items(path):
            key = shape(body)
            if len(key) >= LEAST:
                groups.setdefault(key, []).append(f"{path[len(top) + 1:]}:{line} {name}")
    twins = [it for it in groups.values() if len(it) > 1]
    for group in twins:
        print("; ".join(group))
    print(f"{len(twins)} groups, {sum(map(len, twins))} places")


main()
