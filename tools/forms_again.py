#!/usr/bin/env python3
"""forms_again: the places of src/ counted in another way than tools/forms.py does, by the parts of each function.

    python3 tools/forms_again.py          at the top of the repository; with --places each place by file and function

forms.py looks at lines; this reads each function as parameters, clauses and body, and asks of these.
"""
import collections, glob, re, sys

CRATES = ["track", "board", "script", "firmware", "runner", "bench"]
HEAD = re.compile(r"\bfn (\w+)(?:<[^(]*>)?\(")
WORD = re.compile(r"[A-Za-z_]\w*|\d+|\S")
KEPT = {"if", "else", "match", "while", "for", "in", "let", "mut", "return", "as", "self", "Some", "None", "Ok", "Err", "true", "false", "loop", "break", "continue"}


def closed(text, at, opening, closing):
    """The place behind the bracket that closes the one at `at`."""
    depth = 0
    for i in range(at, len(text)):
        depth += (text[i] == opening) - (text[i] == closing)
        if depth == 0: return i + 1
    raise ValueError(text[at:at + 40])


def functions():
    """Each function: crate, place, parameters (name, type), clauses, body."""
    for crate in CRATES:
        for path in sorted(glob.glob(f"crates/{crate}/src/**/*.rt", recursive=True)):
            with open(path, encoding="utf-8") as f:
                text = re.sub(r"//[^\n]*", "", f.read())
            for m in HEAD.finditer(text):
                end = closed(text, m.end() - 1, "(", ")")
                inner, depth, parts = text[m.end():end - 1], 0, [""]
                for c in inner:
                    depth += (c in "([<") - (c in ")]>")
                    if c == "," and depth == 0: parts.append("")
                    else: parts[-1] += c
                parameters = [tuple(x.strip() for x in p.split(":", 1)) for p in parts if ":" in p]
                rest = re.match(r"[^{]*?(?=\n?\s*(?:ghost|requires|ensures|measure)\b|\{|;)", text[end:], re.S)
                at = end + (rest.end() if rest else 0)
                clauses = []
                while True:
                    clause = re.match(r"\s*(ghost|requires|ensures|measure)\b[^{]*\{", text[at:])
                    if not clause: break
                    stop = closed(text, at + clause.end() - 1, "{", "}")
                    clauses.append((clause.group(1), " ".join(text[at + clause.end():stop - 1].split())))
                    at = stop
                body = re.match(r"\s*\{", text[at:])
                if not body: continue
                stop = closed(text, at + body.end() - 1, "{", "}")
                yield crate, f"{path}: {m.group(1)}", parameters, clauses, text[at + body.end():stop - 1]


FUNCTIONS = list(functions())


def bodies(pattern):
    return [(crate, f"{place}: {' '.join(hit.group(0).split())}") for crate, place, _, _, body in FUNCTIONS for hit in re.finditer(pattern, body)]


def facts():
    """Definitions that the `requires` of three functions or more name."""
    named = collections.defaultdict(list)
    for crate, place, _, clauses, _ in FUNCTIONS:
        words = {w for kind, c in clauses if kind == "requires" for w in re.findall(r"\b[A-Za-z_]\w+\b", c)}
        for w in words - {"self", "old", "new", "now", "length", "result"}:
            if w[0].isupper() or "_" in w: named[w].append((crate, f"{w}: {place}"))
    return [p for ps in named.values() if len(ps) >= 3 for p in ps]


def together():
    """Three parameters, by name and type, wherever they stand, of three functions or more."""
    sets = collections.defaultdict(list)
    for crate, place, parameters, _, _ in FUNCTIONS:
        names = sorted(set(parameters))
        for i in range(len(names)):
            for j in range(i + 1, len(names)):
                for k in range(j + 1, len(names)):
                    sets[names[i], names[j], names[k]].append((crate, place))
    found = [(t, ps) for t, ps in sets.items() if len(ps) >= 3]
    return sorted({(crate, f"{place}: {', '.join(n for n, _ in t)}") for t, ps in found for crate, place in ps})


def twins():
    """Functions of the same crate or another whose bodies differ in names and numbers alone (of twelve words or more)."""
    shapes = collections.defaultdict(list)
    for crate, place, _, _, body in FUNCTIONS:
        words = WORD.findall(body)
        if len(words) < 12: continue
        shape = " ".join(w if w in KEPT or not re.match(r"\w", w) else "_" for w in words)
        shapes[shape].append((crate, place))
    return [p for ps in shapes.values() if len(ps) >= 2 for p in ps]


ROWS = [
    ("1 a number given for none or for a refusal: the last value of an exit is a bare 0", bodies(r"return 0;|\{\s*0\s*\}")),
    ("2 bodies that differ in names and numbers alone", twins()),
    ("3 loops: while, loop, and `for` over an index that its body looks up", bodies(r"\b(while|loop)\b[^{]*\{|for (\w+) in \(?[^{]*\.\.[^{]*\{(?=[^}]*\[\2\])")),
    ("4 casts that may be From: to a wider number", bodies(r"\b[\w.()]+ as (u32|u64|i64)\b")),
    ("4 comparisons of .0 with .0", bodies(r"\b[\w.]+\.0 (<|<=|==|!=|>|>=) [\w.]+\.0\b")),
    ("5 definitions that the clauses of three functions or more require", facts()),
    ("5 three parameters, by name and type, of three functions or more", together()),
    ("6 a slice and a number that is a place or a length in it", [(c, f"{p}: {', '.join(n for n, _ in ps)}") for c, p, ps, _, _ in FUNCTIONS
        if any("[" in t for _, t in ps) and any(t in ("usize",) for _, t in ps)]),
    ("7 matches on a number", bodies(r"match \w+(\.\w+)* \{\s*\d+ =>")),
]
for name, found in ROWS:
    count = collections.Counter(c for c, _ in found)
    print(f"{name}: {len(found)} (" + ", ".join(f"{c} {count[c]}" for c in CRATES if count[c]) + ")")
    if "--places" in sys.argv:
        for _, place in found: print("    " + place)
