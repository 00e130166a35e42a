#!/usr/bin/env python3
"""port_names: brings the repository's own definitions, lemmas and fields to snake case, once, behind port.py (docs/PORT.md).

A word of specs/, proofs/, a clause or a must-fail edit that begins small and goes on with capitals (stepsIn, doPLAY) gets underscores in
their place (steps_in, do_play). All such words are this repository's own: none is imported from the library. Where a definition's new
name is that of a lemma which the same files name, the lemma gets _lem after its name, as the library has it. A field of a record gets
underscores for its dashes, unless a definition has that name. Strings, functions of src/ and exported names have no such words.
Documents follow: a name in backticks is respelled too.
Run once at the root of the repository, behind `python3 /opt/rattle/port/port.py`.
"""
import glob
import re

WORD = re.compile(r"(?<![A-Za-z0-9_'/])([a-z][A-Za-z0-9]*[A-Z][A-Za-z0-9]*)(?![A-Za-z0-9_])")
# A word of the papers, no definition of ours.
PAPERS = {"doneStage"}
# A lemma and the files in which a definition takes its name.
LEMMAS = {
    "found_in": ["crates/board/proofs/**/*.antt"],
    "of_steps": ["crates/board/proofs/tick/Full.antt"],
    "number_behind": ["crates/script/proofs/**/*.antt"],
}
ANTT = ["crates/*/specs/**/*.antt", "crates/*/proofs/**/*.antt"]


def snake(word):
    if word in PAPERS:
        return word
    word = re.sub(r"(?<=[a-z0-9])([A-Z]+)(?=[0-9]|$)", lambda m: "_" + m.group(1).lower(), word)
    return re.sub(r"(?<=[a-z0-9])([A-Z])", lambda m: "_" + m.group(1).lower(), word)


def words(text):
    return WORD.sub(lambda m: snake(m.group(1)), text)


def files(*patterns):
    return sorted({p for pattern in patterns for p in glob.glob(pattern, recursive=True) if "/out/" not in p})


def read(path):
    with open(path, encoding="utf-8", newline="") as f:
        return f.read()


def turn(path, change):
    old = read(path)
    new = change(old)
    if new != old:
        with open(path, "w", encoding="utf-8", newline="") as f:
            f.write(new)


def whole(name):
    return re.compile(rf"(?<![\w'-]){re.escape(name)}(?![\w'-])")


def dashed_fields():
    """The fields of records whose names have a dash."""
    found = set()
    for path in files(*ANTT):
        inside = None
        for line in read(path).split("\n"):
            indent = len(line) - len(line.lstrip())
            if re.match(r"\s*(pub )?record ", line):
                inside = indent
            elif inside is not None and line.strip():
                if indent <= inside:
                    inside = None
                elif m := re.match(r"\s*(?:pub )?([^\s:]+-[^\s:]*) :", line):
                    found.add(m.group(1))
    return found


for lemma, patterns in LEMMAS.items():
    for path in files(*patterns):
        turn(path, lambda text: whole(lemma).sub(lemma + "_lem", text))
crates = files(*ANTT, "crates/*/src/**/*.rt", "crates/*/must-fail/*.edit", "crates/*/edits/*")
for path in crates:
    turn(path, words)
texts = [read(path) for path in crates]
fields = [f for f in sorted(dashed_fields()) if not any(whole(f.replace("-", "_")).search(t) for t in texts)]
dashes = re.compile(r"(?<![\w'-])(" + "|".join(sorted(map(re.escape, fields), key=len, reverse=True)) + r")(?![\w'-])")


def joined(text):
    return dashes.sub(lambda m: m.group(1).replace("-", "_"), text)


for path in crates:
    if not path.endswith(".rt"):
        turn(path, joined)
for path in files("docs/*.md", "README.md"):
    turn(path, lambda text: re.sub(r"`[^`\n]+`", lambda m: joined(words(m.group(0))), text))
print(f"port_names: {len(fields)} fields had dashes")
