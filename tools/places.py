"""Counts the places that docs/DESIGN-PASS.md speaks of, by the text of crates/*/src and crates/*/proofs: python3 tools/places.py [--list] [FOLDER].
Each line is a point's number, what is counted, and how many there are; --list names the places too."""
import collections
import glob
import os
import re
import sys

LIST = "--list" in sys.argv
ROOT = ([a for a in sys.argv[1:] if not a.startswith("--")] or ["."])[0]
SRC = sorted(glob.glob(os.path.join(ROOT, "crates/*/src/**/*.rt"), recursive=True))
FN = re.compile(r"^[ \t]*(?:pub(?:\([a-z]+\))? )?(?:const )?fn (\w+)(?:<[^>]*>)?\((.*?)\)\s*(->[^\n{]*)?", re.S | re.M)
WORD = re.compile(r"b?\"(?:[^\"\\]|\\.)*\"|b?'(?:[^'\\]|\\.)+'|[A-Za-z_]\w*|\d\w*|[^\s\w]")
KEY = set("fn let mut if else while for in loop match return break continue true false as u8 u16 u32 u64 usize bool self Self".split())

# Functions of the old code that a library method, a derive, From or Display says today.
BY_HAND = ("same same_bytes same_answer wide wide64 wide8 low low_byte narrow least at_most later less left digit nibble is_digit number_of number_written "
           "copy swap clear bytes numbers words both either more put_hex put_decimal put_number").split()
# Parameters that travel together: what each of the group's parameters looks like.
TOGETHER = {
    "the matrix and its width": [r"\bbits: &\[u8\]", r"\bl: usize"],
    "the list's room and the tally": [r"list: &mut \[u64\]", r"t: Tally"],
    "the working matrix and its numbers": [r"work: &(?:mut )?\[u8\]", r"\bm: usize", r"\bl: usize", r"\bi: usize"],
    "the nine working slices": [r"work: ", r"scratch: ", r"degrees: &", r"sizes: &"],
    "a system's buffers": [r"bits: ", r"octets: ", r"slab: ", r"list: "],
    "a part of the slab and its room": [r"slab: &", r"room: &", r"\b(?:at|src): usize", r"\bn: usize"],
    "a list's order and whether there is one": [r"ordered: bool", r"order: &"],
}


def plain(text):
    """The text without comments."""
    return re.sub(r"//[^\n]*", "", text)


def body_of(text, at):
    """The function's body from the first brace after its clauses."""
    depth, i = 0, at
    for m in re.compile(r"\n[ \t]*\{\n|\{ ?\n|\{ [^}\n]* \}\n").finditer(text, at):
        i = m.start() + m.group().index("{")
        if m.group().startswith("\n") or not re.search(r"(?:requires|ensures)[^\n]*$", text[text.rfind("\n", 0, i) + 1:i]):
            break
    start = i
    while i < len(text):
        depth += {"{": 1, "}": -1}.get(text[i], 0)
        i += 1
        if depth == 0:
            break
    return text[start:i]


def shape(body):
    """The body with each name by its first place, each number and text by a sign."""
    names, out = {}, []
    for w in WORD.findall(body):
        if w[0].isdigit() or w[0] in "\"'" or w[:2] in ("b\"", "b'"):
            out.append("0")
        elif re.match(r"\w", w) and w not in KEY:
            out.append("v%d" % names.setdefault(w, len(names)))
        else:
            out.append(w)
    return tuple(out)


def main():
    places = collections.OrderedDict()

    def count(point, what, found):
        places[(point, what)] = found

    def lines(pattern, skip=None):
        found = []
        for path in SRC:
            for n, line in enumerate(open(path), 1):
                if re.search(pattern, line) and not (skip and re.search(skip, line)):
                    found.append("%s:%d %s" % (os.path.relpath(path, ROOT), n, line.strip()[:100]))
        return found

    functions = []
    for path in SRC:
        text = plain(open(path).read())
        for m in FN.finditer(text):
            functions.append((os.path.relpath(path, ROOT), m[1], m[2], m[3] or "", body_of(text, m.end())))
    count(1, "enums", lines(r"^\s*(?:pub )?enum "))
    count(1, "flags beside a value", lines(r"\b(?:ordered|octet|waits|skips|over): bool|which: OctetRows"))
    count(1, "numbers for kinds and refusals", lines(r"which: usize|refusal: usize|put_refused\(out, \d|=> (?:0|2|4|8|10),$"))
    groups = collections.defaultdict(list)
    for path, name, _, _, body in functions:
        key = shape(body)
        if len(key) > 14:
            groups[key].append(path + " " + name)
    count(2, "functions of one shape", [" = ".join(g) for g in groups.values() if len(g) > 1 for _ in g])
    count(3, "while", lines(r"^\s*while "))
    count(3, "an index moved by one", lines(r"^\s*\w+ [+-]= 1;$|^\s*(\w+) = \w+ [+-] 1;$"))
    count(4, "casts", lines(r" as (?:u8|u32|u64|usize)\b"))
    count(4, "functions by hand", [p + " " + n for p, n, _, _, _ in functions if n in BY_HAND])
    count(4, "types with Clone and Copy alone", lines(r"^\s*#\[derive\(Clone, Copy\)\]"))
    for what, parts in TOGETHER.items():
        count(5, what, [p + " " + n for p, n, a, _, _ in functions if all(re.search(r, a) for r in parts)])
    count(6, "a room, and how much it holds given and returned",
          [p + " " + n for p, n, a, r, _ in functions if re.search(r"&mut \[", a) and re.search(r"\b(?:n|used|at): usize", a) and "usize" in r])
    count(7, "switches on a step's number", lines(r"match which|match kind"))
    for (point, what), found in places.items():
        print(point, what + ":", len(found))
        if LIST:
            for place in found:
                print("    " + place)
    answers = glob.glob(os.path.join(ROOT, "crates/*/proofs/**/Answers.antt"), recursive=True)
    texts = [open(a).read() for a in answers]
    print(8, "answers: %d goals, %d lines in %d files" % (sum(len(re.findall(r"^pub \S+ : goal\.", t, re.M)) for t in texts), sum(t.count("\n") for t in texts), len(answers)))


main()
