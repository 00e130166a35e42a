#!/usr/bin/env python3
"""side_by_side: the tables at the end of docs/DESIGN-PASS.md: what changed of public functions, public types, definitions, and of the
theorems that README or docs/ name, old beside new.

    python3 tools/side_by_side.py OLD NEW          two trees of this repository; prints Markdown

It goes by text: that two texts differ does not say that they mean different things. A word of docs/ that is a theorem's name by chance is
listed too.
"""
import glob, os, re, sys

CRATES = ["bench", "board", "firmware", "runner", "script", "track"]
FUNCTION = re.compile(r'^[ \t]*(pub (?:extern "C" )?(?:const )?(?:unsafe )?fn (\w+)(?:<[^(]*>)?)\(', re.M)
IMPL = re.compile(r"^impl(?:<[^>]*>)? (?:\w+(?:<[^>]*>)? for )?(\w+)", re.M)
TYPE = re.compile(r"^(pub (?:struct|enum) (\w+)(?:<[^>]*>)?)\s*([({])", re.M)
NAME = re.compile(r"(?:abbrev |unfoldable )?(?:pub )?(?:record )?([^\s:({]+)\s*(?=[:({])")


def closed(text, at, opening, closing):
    """The place behind the bracket that closes the one at `at`."""
    depth = 0
    for i in range(at, len(text)):
        depth += (text[i] == opening) - (text[i] == closing)
        if depth == 0: return i + 1
    raise ValueError(text[at:at + 60])


def one_line(text):
    text = re.sub(r"\(\s+", "(", " ".join(text.split()))
    return re.sub(r"\s+\)", ")", re.sub(r",\s*\)", ")", text))


def sources(root):
    for crate in CRATES:
        for path in sorted(glob.glob(f"{root}/crates/{crate}/src/**/*.rt", recursive=True)):
            with open(path, encoding="utf-8") as f:
                yield crate, os.path.relpath(path, f"{root}/crates/{crate}/src"), re.sub(r"//[^\n]*", "", f.read())


def functions(root):
    found = {}
    for crate, path, text in sources(root):
        for m in FUNCTION.finditer(text):
            end = closed(text, m.end() - 1, "(", ")")
            at = end + re.match(r"[^{;]*?(?=\n?\s*\b(?:ghost|requires|ensures|measure)\b|\s*\{|;)", text[end:], re.S).end()
            said = [one_line(text[m.start(1):at])]
            while clause := re.match(r"\s*(ghost|requires|ensures|measure)\b[^{]*\{", text[at:]):
                stop = closed(text, at + clause.end() - 1, "{", "}")
                said.append(" ".join(text[at:stop].split()))
                at = stop
            owners = [i.group(1) for i in IMPL.finditer(text[:m.start()])]
            owner = owners[-1] + "::" if owners and text[m.start():].startswith("    ") else ""
            found.setdefault((crate, path, owner + m.group(2)), []).append(" ".join(said))
    return {k: " / ".join(v) for k, v in found.items()}


def types(root):
    found = {}
    for crate, path, text in sources(root):
        for m in TYPE.finditer(text):
            end = closed(text, m.end() - 1, m.group(3), ")" if m.group(3) == "(" else "}")
            found[crate, path, m.group(2)] = one_line(text[m.start():end])
    return found


def declarations(root, folder):
    """Each definition or law of specs/ or proofs/: the parameters of the modules that it stands in, and its text."""
    found = {}
    for crate in CRATES:
        for path in sorted(glob.glob(f"{root}/crates/{crate}/{folder}/**/*.antt", recursive=True)):
            if os.path.basename(path) in ("Lib.antt", "Answers.antt", "Invariants.antt"): continue
            with open(path, encoding="utf-8") as f:
                lines = f.read().split("\n")
            place, modules, i = os.path.relpath(path, f"{root}/crates/{crate}/{folder}")[:-5], [], 0
            while i < len(lines):
                text, indent = lines[i].strip(), len(lines[i]) - len(lines[i].lstrip())
                if not text or text.startswith("--"):
                    i += 1
                    continue
                while modules and indent <= modules[-1][0]: modules.pop()
                if text.startswith("module "):
                    i += 1
                    while not text.endswith("where") and i < len(lines):
                        text += " " + lines[i].strip()
                        i += 1
                    modules.append((indent, text[len("module _"):].rsplit(" where", 1)[0].strip() if text.startswith("module _") else ""))
                    continue
                block, i = [text], i + 1
                while i < len(lines) and lines[i].strip() and not lines[i].strip().startswith("--"):
                    deeper = len(lines[i]) - len(lines[i].lstrip()) - indent
                    if deeper < 0 or deeper == 0 and re.match(r"(abbrev |unfoldable |pub |module |use )", lines[i].strip()): break
                    block.append(lines[i].strip())
                    i += 1
                m = NAME.match(text)
                if m and not text.startswith("use "):
                    given = " ⊢ ".join(p for _, p in modules if p)
                    found.setdefault((crate, place, m.group(1)), (given, " ".join(" ".join(block).split())))
    return found


def statement(declared, name):
    """A law without its proof: up to the line that begins with its name again, or opens a definition."""
    given, text = declared
    ends = [m.start() for m in re.finditer(r"(?<=\s)" + re.escape(name) + r"(?=[\s{])", text) if m.start() > len(name) + 6]
    if " unfolding " in text: ends.append(text.index(" unfolding "))
    said = re.sub(r"^(?:abbrev |unfoldable )?(?:pub )?" + re.escape(name) + r"\s*:?\s*", "", text[:min(ends, default=len(text))].strip())
    return (given + " ⊢ " if given else "") + said.strip()


def cell(text):
    return "–" if text is None else "`" + text.replace("|", "\\|") + "`"


def table(title, first, old, new, label):
    print(f"### {title}\n\n| {first} | Old | New |\n|---|---|---|")
    for key in sorted(set(old) | set(new)):
        if old.get(key) != new.get(key): print(f"| {label(key)} | {cell(old.get(key))} | {cell(new.get(key))} |")
    print()


def named(root):
    """Every word that README or docs/ has between backquotes."""
    words = set()
    for path in [f"{root}/README.md"] + sorted(glob.glob(f"{root}/docs/**/*.md", recursive=True)):
        if "PORT-NAMES" in path: continue
        with open(path, encoding="utf-8") as f:
            for quoted in re.findall(r"`([^`\n]+)`", f.read()): words |= set(re.findall(r"[^\s(),;|]+", quoted))
    return words


def theorems(root, words):
    found = {}
    for (crate, place, name), declared in declarations(root, "proofs").items():
        if name in words: found.setdefault((crate, name), []).append((place, statement(declared, name)))
    return {k: " / ".join(sorted({s for _, s in v})) for k, v in found.items()}


def meant(text):
    return text.replace("none", "None").replace("some ", "Some ")


old, new = sys.argv[1:3]
table("Public functions: signature and clauses", "Where", functions(old), functions(new), lambda k: f"{k[0]} `{k[1]}`")
table("Public types", "Where", types(old), types(new), lambda k: f"{k[0]} `{k[1]}`")
definitions = [{(c, n): (g + " ⊢ " if g else "") + t for (c, _, n), (g, t) in declarations(root, "specs").items()} for root in (old, new)]
table("Definitions", "Name", *definitions, lambda k: f"{k[0]} `{k[1]}`".replace("|", "\\|"))
before, after = (theorems(root, named(old)) for root in (old, new))
both = [k for k in before if k in after and meant(before[k]) != meant(after[k])]
table("Theorems named in README or docs/ that read otherwise", "Theorem", *({k: side[k] for k in both} for side in (before, after)), lambda k: f"{k[0]} `{k[1]}`")
print("Named and gone: " + (", ".join(f"{c} `{n}`" for c, n in sorted(set(before) - set(after))) or "none"))
