#!/usr/bin/env python3
"""Brings the repository's own definitions and lemmas to the spelling of today's Rattle: words in snake case, types and modules in camel case.

usage: python3 tools/spell.py [--map FILE] [--use FILE]   at the top of the repository, once, after port.py

A name that specs/ declares, a field and a constructor lose their dashes; a lemma of proofs/ keeps a dash, which joins two names.
--map writes the names, old and new; --use takes them from such a file, and collects none.
"""

import json
import os
import re
import sys

WORD = re.compile(r"[^\s(){}\[\];,.λ@\"|↦]+")
HUMP = re.compile(r"(?<=[a-z0-9₀-₉'])([A-Z])")
DECLARED = re.compile(r"^(\s*)((?:pub |abbrev |unfoldable )*)((?:record |data |ruleset )?)([^\s(){}\[\];,.:]+)(?=\s*(?:[:({]|$| where))")
COMMENT = re.compile(r"--[^\n]*|//[^\n]*")
# Names that would fall together with a field, a lemma or a parameter where both are used.
APART = {
    "eachOnce": "each_comes_once", "emptyList": "empty_list_network", "shortList": "short_list_network", "handedBack": "state_handed_back",
    "isBuild": "is_a_build", "noBuild": "builds_none", "rowBytes": "bytes_per_row", "rowsFilled": "rows_are_filled", "sizesFit": "sizes_all_fit",
    "tableCount": "count_of_tables", "valueCompleted": "completed_value", "zeroState": "state_of_zeros", "mostValues": "values_at_most",
    "leftAs": "state_left", "firstFound": "first_found_in", "valueIn": "value_among", "binAt": "bin_of_place", "readNumber": "number_read",
    "countAt": "count_there", "binLine": "line_of_bin", "toldOf": "told_as",
}
KEYWORDS = {"use", "module", "mod", "where", "unfolding", "let", "in", "elim", "pub", "abbrev", "record", "data", "ghost", "mutual", "→", "∙", "λ", "as", "if", "_"}


def antt(root, part):
    for folder, dirs, files in os.walk(os.path.join(root, "crates")):
        dirs[:] = sorted(d for d in dirs if d not in ("out", ".git"))
        for f in sorted(files):
            p = os.path.join(folder, f)
            if f.endswith(".antt") and f"/{part}/" in p:
                yield p


def snake(name):
    """The humps of a name that begins with a small letter, part by part."""
    def part(x):
        if not x or not x[0].islower():
            return x
        return HUMP.sub(lambda m: "_" + m.group(1).lower(), x)
    return "-".join(part(x) for x in name.split("-"))


def flat(name):
    return name if name[:1].isupper() else name.replace("-", "_")


def collect(root):
    """Names that the repository declares: of specs/, of fields and constructors, and of proofs/."""
    specs, fields, lemmas = set(), set(), set()
    for part, into in (("specs", specs), ("proofs", lemmas)):
        for p in antt(root, part):
            if p.endswith("/Proof.antt"):
                continue
            text = COMMENT.sub("", open(p, encoding="utf-8").read())
            deep = None  # the column of the record or data that is open
            for line in text.split("\n"):
                m = DECLARED.match(line)
                if not line.strip():
                    continue
                col = len(line) - len(line.lstrip())
                if deep is not None and col <= deep:
                    deep = None
                if not m or m.group(4) in KEYWORDS:
                    continue
                name = m.group(4)
                if m.group(3) in ("record ", "data "):
                    into.add(name)
                    deep = col
                    continue
                if deep is not None:
                    if re.match(r"\s*(pub )?" + re.escape(name) + r"\s*:", line):
                        fields.add(name)
                elif re.search(r"(^|\s)" + re.escape(name) + r"\s*(:|$|[({])", line):
                    into.add(name)
    return specs, fields, lemmas


def renamed(root):
    specs, fields, lemmas = collect(root)
    names = {}
    for n in sorted(specs | fields | lemmas):
        new = snake(n)
        if n in specs or n in fields:
            new = flat(new)
        new = APART.get(n, new)
        if new != n:
            names[n] = new
    return names


def code(text, names, rt):
    """The text with its words renamed, comments and strings aside."""
    out, at = [], 0
    skip = re.compile(r"//[^\n]*|\"(?:\\.|[^\"\\])*\"" if rt else r"--[^\n]*")
    for m in skip.finditer(text):
        out.append(WORD.sub(lambda w: names.get(w.group(0), w.group(0)), text[at:m.start()]))
        out.append(COMMENTED.sub(lambda w: "`" + WORD.sub(lambda x: names.get(x.group(0), x.group(0)), w.group(1)) + "`", m.group(0)) if not m.group(0).startswith('"') else m.group(0))
        at = m.end()
    out.append(WORD.sub(lambda w: names.get(w.group(0), w.group(0)), text[at:]))
    return "".join(out)


COMMENTED = re.compile(r"`([^`\n]+)`")


def main(argv):
    root = os.getcwd()
    names = json.load(open(argv[argv.index("--use") + 1])) if "--use" in argv else renamed(root)
    if "--map" in argv:
        json.dump(names, open(argv[argv.index("--map") + 1], "w"), ensure_ascii=False, indent=0, sort_keys=True)
    fell = {}
    for folder, dirs, files in os.walk(os.path.join(root, "crates")):
        dirs[:] = sorted(d for d in dirs if d not in ("out", ".git"))
        for f in sorted(files):
            if not f.endswith((".rt", ".antt")):
                continue
            p = os.path.join(folder, f)
            old = open(p, encoding="utf-8").read()
            words = set(WORD.findall(old))
            for w in words:
                if w in names and names[w] in words:
                    fell.setdefault((w, names[w]), []).append(os.path.relpath(p, root))
            new = code(old, names, f.endswith(".rt"))
            if new != old and "--dry" not in argv:
                open(p, "w", encoding="utf-8").write(new)
    for (a, b), ps in sorted(fell.items()):
        print(f"fall together: {a} and {b} in {len(ps)}: {' '.join(ps[:4])}")
    back = {}
    for a, b in names.items():
        back.setdefault(b, []).append(a)
    for b, xs in sorted(back.items()):
        if len(xs) > 1:
            print(f"one new name {b}: {' '.join(xs)}")
    print(f"{len(names)} names")


if __name__ == "__main__":
    main(sys.argv[1:])
