#!/usr/bin/env python3
"""Brings the repository's own definitions and lemmas to today's spelling: words in snake case.

usage: python3 tools/port_names.py      at the top of the repository, once, right after port.py

port_names.tsv beside it lists each name, old and new. A dash stays where it joins two names of definitions, as in
`length-drop`, or touches a sign that is no letter; a lemma that would have its definition's name ends in `_lem`.
HERE lists the lemmas that port.py had already given the spelling of a definition that their file uses.
Functions of src/, fields, exported names, strings and must-fail edits are not touched.
"""

import glob
import os
import re

HERE = [
    (r"crates/splitting/proofs/LogRuns\.antt$", "half_length", "half_length_lem"),
    (r"crates/aldebaran_form/proofs/LinesInTexts\.antt$", "head_in", "head_in_lem"),
    (r"crates/aldebaran_form/proofs/WrittenNumbers\.antt$", "is_digit", "is_digit_lem"),
    (r"crates/aldebaran_form/proofs/WrittenNumbers\.antt$", "digits_in", "digits_in_lem"),
    (r"crates/aldebaran/proofs/.*\.antt$", "row_number", "row_number_lem"),
    (r"crates/halves/proofs/Halves\.antt$", "read_fits", "read_fits_lem"),
]

# A name as antt reads it, and as it stands in clauses.
NAME = re.compile(r"[^\s(){}.;,@\"«»\[\]\\:`]+")
PLAIN = re.compile(r"[A-Za-z_][A-Za-z0-9_]*")


def table():
    path = os.path.join(os.path.dirname(os.path.realpath(__file__)), "port_names.tsv")
    with open(path, encoding="utf-8") as lines:
        return dict(line.rstrip("\n").split("\t") for line in lines)


def turn(path, names):
    with open(path, encoding="utf-8") as file:
        old = file.read()
    if path.endswith(".antt"):
        own = {a: b for pattern, a, b in HERE if re.search(pattern, path)}
        new = NAME.sub(lambda m: own.get(m.group(), names.get(m.group(), m.group())), old)
    else:
        new = PLAIN.sub(lambda m: names.get(m.group(), m.group()), old)
    if new != old:
        with open(path, "w", encoding="utf-8") as file:
            file.write(new)
    return new != old


def main():
    names = table()
    paths = glob.glob("crates/*/specs/**/*.antt", recursive=True)
    paths += glob.glob("crates/*/proofs/**/*.antt", recursive=True)
    paths += glob.glob("crates/*/src/**/*.rt", recursive=True)
    print(sum(turn(path, names) for path in sorted(paths)), "files changed")


if __name__ == "__main__":
    main()
