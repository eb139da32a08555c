#!/usr/bin/env python3
"""Respells the repository's own definitions and lemmas: words in snake case; a dash only where it joins the names of two definitions.

usage: python3 tools/respell.py [--list]      at the top of the repository

It reads the names that specs/*.antt and proofs/*.antt of every crate declare, gives each its new spelling, refuses to go on where two names would
fall together, and rewrites the .antt files and what .rt files say of these names (imports of ghost names, clauses, comments; no string).
Types, facts in upper camel case, functions of src/ and names that the checker makes are left as they are. With --list it prints the names alone.
"""
import glob, re, sys

TOK = re.compile(r"[^\s(){}\[\]\.,;:`\"/|·]+")
DECL = re.compile(r"^\s*((?:abbrev|unfoldable|pub|record|data|opaque)\s+)*([^\s:(){}\.,;`\"]+)\s+:(?:\s|$)")
IMPORT = re.compile(r"^use\s+([\w.·']+)\.\{([^}]*)\}")
OLD_PARTS = {"getD": "get_or"}
JOINED = {"append", "cons", "nil", "snoc"}
# Lemmas that would have their function's name.
LEMMAS = {
    "columns-in", "entries-in", "filled_at", "first-loss", "flag-in", "head-least", "least-from", "least-of", "list-fine", "lose-col", "ops-in",
    "order-fine", "ordered-in", "rows_in", "run-way", "shape-fine", "words-in",
}


def snake(word):
    if not re.match(r"^[a-z]", word):
        return word
    word = OLD_PARTS.get(word, word)
    return re.sub(r"(?<=[a-z0-9])([A-Z])", lambda m: "_" + m.group(1).lower(), word)


files = sorted(glob.glob("crates/*/specs/*.antt") + glob.glob("crates/*/proofs/*.antt"))
declared, definitions, where = set(), set(JOINED), {}
for path in files:
    for line in open(path, encoding="utf-8"):
        m = DECL.match(line)
        if m:
            name = m.group(2)
            declared.add(name)
            where.setdefault(name, set()).add(path)
            if re.match(r"^\s*(abbrev|unfoldable|opaque|record|data|pub record|pub data)\b", line) and "-" not in name:
                definitions.add(snake(name))
        m = IMPORT.match(line)
        if m and not re.search(r"^Rattle\.(?!std\b)", m.group(1)):
            for n in m.group(2).split(","):
                n = n.strip()
                if re.match(r"^[a-z]\w*$", n):
                    definitions.add(snake(n))


def respelled(name):
    if name not in LEMMAS and not re.search(r"[A-Z-]", name) or "◌" in name or not re.match(r"^[A-Za-z_]", name):
        return name
    parts = name.split("-")
    new = snake(parts[0])
    last = new
    for p in parts[1:]:
        s = snake(p)
        new += ("-" if last in definitions and s in definitions else "_") + s if p else "-"
        last = s
    return new + "_lem" if name in LEMMAS else new


new = {}
for n in sorted(declared):
    r = respelled(n)
    if r != n:
        new[n] = r

taken = {}
for n in declared:
    taken.setdefault(new.get(n, n), set()).add(n)
bad = {k: v for k, v in taken.items() if len(v) > 1}
if "--list" in sys.argv:
    for n, r in new.items():
        print(f"{n}\t{r}")
for k, v in sorted(bad.items()):
    print(f"fall together as {k}: " + ", ".join(f"{n} ({', '.join(sorted(where[n]))})" for n in sorted(v)), file=sys.stderr)
if bad or "--list" in sys.argv:
    raise SystemExit(1 if bad else 0)

changed = 0
for path in sorted(glob.glob("crates/*/specs/**/*.antt", recursive=True) + glob.glob("crates/*/proofs/**/*.antt", recursive=True) + glob.glob("crates/*/src/**/*.rt", recursive=True)):
    text = open(path, encoding="utf-8").read()

    def turn(m):
        return new.get(m.group(0), m.group(0))

    out = []
    for line in text.split("\n"):
        if path.endswith(".rt"):
            parts = re.split(r'("(?:[^"\\]|\\.)*")', line)
            out.append("".join(p if i % 2 else TOK.sub(turn, p) for i, p in enumerate(parts)))
        else:
            out.append(TOK.sub(turn, line))
    res = "\n".join(out)
    if res != text:
        open(path, "w", encoding="utf-8").write(res)
        changed += 1
print(f"{len(new)} names respelled in {changed} files")
