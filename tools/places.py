#!/usr/bin/env python3
"""Counts the places of each point of docs/DESIGN-PASS.md, in the sources of the checkout in which it runs.

    python3 tools/places.py          the counts
    python3 tools/places.py 3        with each place of point 3
"""
import glob, re, sys

FILES = sorted(glob.glob("crates/*/src/**/*.rt", recursive=True))
SHOW = sys.argv[1:]


def lines():
    for path in FILES:
        for k, line in enumerate(open(path), 1):
            yield path, k, line.rstrip("\n")


def by(pattern, tests=None):
    found = []
    for path, k, line in lines():
        if tests is not None and path.startswith("crates/test_") != tests:
            continue
        if not line.lstrip().startswith("//") and re.search(pattern, line):
            found.append(f"{path}:{k}: {line.strip()}")
    return found


def functions():
    """Each function as its place, its head with its clauses, and its body."""
    for path in FILES:
        text = open(path).read()
        for m in re.finditer(r"(?m)^( *)(?:pub(?:\([a-z]+\))? )?(?:extern \"C\" )?fn (\w+).*?\n\1\}", text, re.S):
            whole = m.group(0)
            cut = re.search(r"(?m)^ *\{\n|\{$|\{ *\n", whole)
            yield f"{path}:{text.count(chr(10), 0, m.start()) + 1}: {m.group(2)}", whole


def copies():
    """Runs of three or more fields that are copied from a value of the same shape."""
    found, run = [], []
    for path, k, line in lines():
        if re.match(r"\s+(\w+): \w+\.\1,$", line):
            run.append(f"{path}:{k}")
        else:
            if len(run) >= 3:
                found.append(f"{run[0]}: {len(run)} fields")
            run = []
    return found


def facts():
    """Facts that the requires of three or more functions state."""
    seen = {}
    for path in FILES:
        for m in re.finditer(r"requires (?:\w+ )?\{(.*?)\}\n", open(path).read(), re.S):
            for part in re.split(r" × ", " ".join(m.group(1).split())):
                part = part.strip().strip("()")
                seen.setdefault(part, []).append(path)
    return [f"{len(v)} times: {k}" for k, v in sorted(seen.items(), key=lambda e: -len(e[1])) if len(v) >= 3]


POINTS = {
    "1 enums of the repository's own": by(r"^\s*(pub(\(crate\))? )?enum \w+"),
    "1 a flag or a number for a kind or a refusal, as a field": by(
        r"^\s*(pub )?(outcome|number|refusal|fault|kind|phase|found|leads|more|code|file|leader|filled|exact|high|low|begun): (u8|bool|usize),"),
    "1 a number for a refusal, as a result": [p for p, w in functions() if re.search(r"-> u8\b", w) and re.search(r"return \d+;|=> \d+,|^\s+\d+$", w, re.M) and not p.startswith("crates/test_")],
    "2 a word that is gathered bit by bit": by(r"\|= \(.* as u32\) << "),
    "2 a test of all, joined by hand": by(r"^\s*(all|same) &= "),
    "2 an array that is filled by index": by(r"^\s*(\w+)\[(\w+)\] = \w+\(.*\b\2\b.*\);$", False),
    "2 texts put one after the other": by(r"^\s*next = put_\w+\("),
    "2 copies of one conversion or sum": by(r"^fn (wide|long|size|capped|sum|plus|either)\("),
    "3 while and loop": by(r"^\s*('\w+: )?(while|loop)\b"),
    "3 a counter that is moved by hand": by(r"^\s*(\w+) (\+= 1|= \1 \+ 1);"),
    "3 for over indices, library": by(r"\bfor \w+ in \S+\.\.", False),
    "3 for over indices, tests": by(r"\bfor \w+ in \S+\.\.", True),
    "4 fields copied one by one": copies(),
    "4 a local copy of a field": by(r"^\s*let (mut )?(\w+) = \w+\.\2;$"),
    "5 facts stated in three or more requires": facts(),
    "6 a buffer with a place beside it": [p for p, w in functions() if re.search(r"buffer: &mut \[u8\],\s+at: usize", w)],
    "6 an array with a length beside it": by(r"^\s*(pub )?length: usize,"),
    "7 a match that picks a step": by(r"^\s*(Leader|Phase)::\w+(\(\w+\))? => "),
}
PROOFS = glob.glob("crates/*/proofs/**/Proof.antt", recursive=True)

for name, found in POINTS.items():
    print(f"{len(found):5}  {name}")
    if name[0] in SHOW:
        for place in found:
            print("         " + place)
print(f"{len(PROOFS):5}  8 proofs that walk the code (Proof.antt), {sum(len(open(p).readlines()) for p in PROOFS)} lines")
