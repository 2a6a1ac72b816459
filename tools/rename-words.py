#!/usr/bin/env python3
"""Brings the repository's own words to snake case: definitions, lemmas, record fields and variables of specs/, proofs/ and clauses.

usage: tools/rename-words.py FOLDER     FOLDER is the top of a checkout that port.py has turned

A word such as `frameOf` becomes `frame_of`, and where it is a part of a dashed name, that part. Types and facts keep their capital. Rust names and
strings have no such words. Where the snake case of a word is taken already by another word of the same crate, or by a field, OTHER has a name for it.
It goes over .antt, .rt and .edit files. A second run changes nothing.
"""
import collections
import os
import re
import sys

WORD = re.compile(r"(?<![A-Za-z0-9_])[a-z][a-z0-9]*(?:[A-Z][a-z0-9]*)+(?![A-Za-z0-9_])")
OTHER = {
    "fwVersion": "fw_version_layout",  # a field of Reply is named fw_version
    "fwInfo": "fw_info_layout",  # the same
    "fwName": "fw_name_bytes",  # the same of FwVersion
    "hwName": "hw_name_bytes",
    "afterFirst": "after_first_byte",  # a lemma is named after_first
    "noRecord": "empty_record",  # a lemma is named no_record
    "takenBack": "taken_again",
    "writtenBack": "written_again",
    "sentBack": "sent_again",
    "setupBits": "setup_bit_count",
    "statsBits": "stats_bit_count",
    "valuesBits": "values_bit_count",
}


def snake(word):
    word = re.sub(r"([a-z0-9])([A-Z])", r"\1_\2", word)
    return re.sub(r"([A-Z])([A-Z])", r"\1_\2", word).lower()


def turned(text):
    return WORD.sub(lambda m: OTHER.get(m.group(), snake(m.group())), text)


def files(top):
    for folder, dirs, names in os.walk(os.path.join(top, "crates")):
        dirs[:] = sorted(d for d in dirs if d != "out")
        for name in sorted(names):
            if name.endswith((".antt", ".rt", ".edit")):
                yield os.path.join(folder, name)


def main():
    if len(sys.argv) != 2 or not os.path.isdir(os.path.join(sys.argv[1], "crates")):
        print(__doc__, file=sys.stderr)
        return 2
    texts = {path: open(path, encoding="utf-8").read() for path in files(sys.argv[1])}
    have = collections.defaultdict(set)
    for path, text in texts.items():
        have[path.split("/crates/")[1].split("/")[0]].update(re.findall(r"[A-Za-z_][A-Za-z0-9_]*", text))
    for crate, words in sorted(have.items()):
        for word in sorted(words):
            if WORD.fullmatch(word) and OTHER.get(word, snake(word)) in words:
                print(f"look: {crate}: {word} and {OTHER.get(word, snake(word))}")
    changed = 0
    for path, text in texts.items():
        new = turned(text)
        if new != text:
            changed += 1
            with open(path, "w", encoding="utf-8") as it:
                it.write(new)
    print(f"{changed} files changed")
    return 0


if __name__ == "__main__":
    sys.exit(main())
