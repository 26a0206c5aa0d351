#!/usr/bin/env python3
"""twins.py [FOLDER]: pairs of functions or types in FOLDER/crates/*/src that are alike once names, numbers and clauses are blanked.

Each line is how alike two are (0.8 to 1), and where they stand. Whoever reads the list decides which are twins.
"""
import difflib
import glob
import os
import re
import sys

WORDS = set(
    """fn pub let mut if else for in match return while loop impl struct enum trait const self Self Ok Err Some None
    true false usize u8 u16 u32 bool str""".split()
)
HEAD = re.compile(r"( *)(?:pub(?:\(crate\))? )?(?:fn|struct|enum|trait) (\w+)")


def items(lines):
    """The functions and types of a file, each with its name and its text."""
    for i, line in enumerate(lines):
        head = HEAD.match(line)
        if not head or line.endswith(";"):
            continue
        for j in range(i, len(lines)):
            if lines[j] == head[1] + "}":
                yield head[2], "\n".join(lines[i : j + 1])
                break


def shape(text):
    """Its words, with comments and clauses gone, and names and numbers blanked."""
    text = re.sub(r"//.*|(requires|ensures).*", "", text)
    for word in re.findall(r"\w+|[^\w\s]", text):
        yield "0" if word[0].isdigit() else word if word in WORDS or not re.match(r"\w", word) else "x"


def main():
    top = sys.argv[1] if len(sys.argv) > 1 else "."
    found = []
    for path in sorted(glob.glob(os.path.join(top, "crates/*/src/*.rt"))):
        with open(path, encoding="utf-8") as file:
            for name, text in items(file.read().split("\n")):
                words = list(shape(text))
                if len(words) >= 25:
                    found.append((os.path.relpath(path, os.path.join(top, "crates")), name, words))
    for i, (path, name, words) in enumerate(found):
        for other, twin, others in found[i + 1 :]:
            alike = difflib.SequenceMatcher(None, words, others, autojunk=False).ratio()
            if alike >= 0.8:
                print(f"{alike:.2f} {path} {name} | {other} {twin}")


main()
