#!/usr/bin/env python3
"""forms: lists the places of src/ at which the design pass (docs/DESIGN-PASS.md) looks, point by point, with a count for each crate.

    python3 tools/forms.py [POINT ..]     at the top of the repository; with --places each place by file and line

A place found here is a place to look at, and not yet a fault: the page says of each kind what became of it.
"""
import collections, glob, re, sys

CRATES = ["track", "board", "script", "firmware", "runner", "bench"]
LINE = {
    "1 own enums": r"^(pub(\(crate\))? )?enum ",
    "1 a flag, an answer or a number beside a value": r"^    (pub )?(done|whole|ended|more|answer|told|number|reason): ",
    "1 numbers for kinds": r"^\s*(pub )?const [A-Z_]+: (u8|u32|i64) = [0-9]+;",
    "1 tests against 0, a number that may stand for none": r"(== 0|!= 0)( \{|;|$)|^    0$",
    "3 loops that count by hand": r"^\s+('\w+: )?(while|loop)\b",
    "4 answers by hand: true, false": r"return (true|false);",
    "4 conversions by hand": r"fn (wide|long|plus|minus|widened|value|of|twos|coordinate_of|number_of|ending_of|word|put_word|put_four|digits_of)\(",
    "4 order by hand: least, greatest": r"fn (smaller|greater|least|lesser|at_most_end|apart|before|after|behind)\(",
    "4 order by hand: numbers of one-number structs": r"\b\w+\.0 (<|<=|==|!=|>) \w+(\.\w+)*\.0\b",
    "6 a buffer and its length": r"&(mut )?\[u\d+\], (n|m|count|used|at): usize|^    (pub )?length: usize",
    "7 switches on a number": r"^\s+(match|if) (n|code|kind)\b",
}
FACTS = re.compile(r"^\s+requires\s+(?:[a-z_0-9]+ )?\{ (.*) \}$")
PARAMETER = re.compile(r"(\w+): (&?'?\w* ?(?:mut )?\[?[\w:; ]+\]?)[,)]")


def sources(crate):
    for path in sorted(glob.glob(f"crates/{crate}/src/**/*.rt", recursive=True)):
        with open(path, encoding="utf-8") as f:
            yield path, f.read().split("\n")


def lines(pattern):
    for crate in CRATES:
        for path, text in sources(crate):
            for i, line in enumerate(text, 1):
                if not line.lstrip().startswith("//") and re.search(pattern, line):
                    yield crate, f"{path}:{i}: {line.strip()}"


def facts():
    """Clauses that stand in the contracts of three functions or more, whatever the value is called."""
    places = collections.defaultdict(list)
    for crate in CRATES:
        for path, text in sources(crate):
            for i, line in enumerate(text, 1):
                m = FACTS.match(line)
                if m: places[re.sub(r"\b(self|t|m|b|master)\b", "_", m.group(1))].append((crate, f"{path}:{i}: {line.strip()}"))
    return [p for ps in places.values() if len(ps) >= 3 for p in ps]


def travellers():
    """Pairs of parameters that stand side by side in five functions or more."""
    places = collections.defaultdict(list)
    for crate in CRATES:
        for path, text in sources(crate):
            whole = "\n".join(text)
            for m in re.finditer(r"fn (\w+)(?:<[^>]*>)?\(([^)]*)\)", whole):
                names = [p.split(":")[0].strip() for p in m.group(2).split(",") if ":" in p]
                for a, b in zip(names, names[1:]):
                    places[a, b].append((crate, f"{path}: {m.group(1)}: {a}, {b}"))
    return [p for ps in places.values() if len(ps) >= 5 for p in ps]


wanted = [a for a in sys.argv[1:] if not a.startswith("--")]
rows = [(name, list(lines(pattern))) for name, pattern in LINE.items()]
rows += [("5 facts in the contracts of three functions or more", facts()), ("5 parameters side by side in five functions or more", travellers())]
for name, found in sorted(rows):
    if wanted and name[0] not in wanted: continue
    count = collections.Counter(c for c, _ in found)
    print(f"{name}: {len(found)} (" + ", ".join(f"{c} {count[c]}" for c in CRATES if count[c]) + ")")
    if "--places" in sys.argv:
        for _, place in found: print("    " + place)
