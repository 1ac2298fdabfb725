#!/usr/bin/env python3
"""Brings the repository's own definitions and lemmas to the spelling of today's Rattle.

usage: python3 tools/respell.py [--list]      at the top of the repository

Words are in snake case. A dash stays only in a lemma, between two names (`length-trimmed`: what `length` of `trimmed` is).
Goals (answers and invariants), names from source, strings and comments of code keep their spelling.
A name whose new spelling would fall together with another word of a file gets the one that BY_HAND gives.
"""
import glob
import re
import sys

# Old spelling: new spelling, where the rule would make two names one, or a name of the library.
BY_HAND = {
    "bit-and": "bit-bit_and",
    "bit-or": "bit-bit_or",
}

DEFINED = re.compile(r"^(?P<in>\s*)(?P<mods>(?:(?:pub|unfoldable|abbrev|record|data|ruleset)\s+)*)(?P<name>[^\s(){}:,;.]+)\s+:\s+(?P<type>.*)$")
WORD = re.compile(r"[^\s(){}\[\],;.:\"|⟨⟩⌜⌝]+")


def files(*ends):
    for end in ends:
        yield from sorted(glob.glob("crates/*/" + end, recursive=True))


def own_names():
    """Each name that specs/ and proofs/ define, with whether it is a lemma, and the files that define it."""
    found = {}
    for path in files("specs/**/*.antt", "proofs/**/*.antt"):
        if path.endswith("Invariants.antt"):
            continue
        record = None
        for line in open(path, encoding="utf-8"):
            # the lines below a record's head, further in, are its fields
            if line.strip():
                depth = len(line) - len(line.lstrip())
                if record is not None and depth <= record:
                    record = None
                if re.match(r"\s*(pub )?record .* where$", line):
                    record = depth
            m = DEFINED.match(line)
            if not m or line.lstrip().startswith("--"):
                continue
            kind = m["type"]
            if kind.startswith("goal.") or "record" in m["mods"] or "data" in m["mods"]:
                continue
            # a fact about values, and no value
            lemma = bool(re.search(r"≡|≤|<|↔|⊥|×|⊎", kind)) and "abbrev" not in m["mods"] and record is None
            found.setdefault(m["name"], []).append((lemma, path))
    return found


def known_words(found):
    """What may stand at either side of a dash: the repository's names, and the library's that it imports."""
    words = {n.replace("-", "_") for n in found}
    for path in files("specs/**/*.antt", "proofs/**/*.antt", "src/*.rt"):
        for line in re.findall(r"use Rattle\.std\.[^\n]*", open(path, encoding="utf-8").read()):
            words |= {w for part in re.findall(r"\{([^}]*)\}", line) for w in re.split(r"[,\s]+", part) if w}
    return words | {"words", "box"}


def new_spelling(name, lemma, words):
    if name in BY_HAND:
        return BY_HAND[name]
    parts = name.split("-")
    if lemma:
        for cut in range(1, len(parts)):
            left, right = "_".join(parts[:cut]), "_".join(parts[cut:])
            if left in words and right in words:
                return left + "-" + right
    return "_".join(parts)


def main():
    found = own_names()
    words = known_words(found)
    turned = {}
    for name, places in found.items():
        if "-" in name.strip("-") and "◌" not in name and "·" not in name:
            turned[name] = new_spelling(name, all(lemma for lemma, _ in places), words)
    turned = {a: b for a, b in turned.items() if a != b}
    clashes = []
    for path in files("src/*.rt", "specs/**/*.antt", "proofs/**/*.antt", "must-fail/*.edit"):
        text = open(path, encoding="utf-8").read()
        present = set(WORD.findall(text))
        for a in present & set(turned):
            if turned[a] in present:
                clashes.append((path, a, turned[a]))
        turn = lambda m: turned.get(m[0], m[0])
        if path.endswith(".antt"):
            new = WORD.sub(turn, text)
        else:
            lines = text.split("\n")
            new = "\n".join(l if l.lstrip().startswith("//") else re.sub(r'"(?:[^"\\]|\\.)*"|' + WORD.pattern, lambda m: m[0] if m[0].startswith('"') else turn(m), l) for l in lines)
        if new != text and "--list" not in sys.argv:
            open(path, "w", encoding="utf-8").write(new)
    for a, b in sorted(turned.items()):
        print(a, "->", b)
    for c in clashes:
        print("CLASH", *c)


main()
