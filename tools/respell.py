#!/usr/bin/env python3
"""Brings the names of this repository's definitions and lemmas to snake case, and the facts among
them to upper camel case. Run once, at the top, right after the kit's own script: `tools/respell.py`.

Turned: in crates/*/specs and crates/*/proofs every word, and in crates/*/src every word outside
strings, that has the form of a definition in lower camel case (`newTotal`), which no function of src/
has, and the facts that were named with dashes. A dash in a lemma's name joins two names and stays. A lemma that would
then have the name of its definition ends in `_lem`.
"""
import glob
import re
import sys

FACTS = {
    "Cases-hold": "CasesHold",
    "Cuts-hold": "CutsHold",
    "Ranges-hold": "RangesHold",
    "Entries-hold": "EntriesHold",
    "Pieces-by-line": "PiecesByLine",
    "none-new": "none_new",
}
# lemmas that would fall together with a definition, by crate
LEMMAS = {"hunk": "in_use", "ranges": "in_use", "rank": "goes_on"}
WORD = re.compile(r"[A-Za-z0-9_'\-]+")
CAMEL = re.compile(r"^[a-z][A-Za-z0-9_']*$")


def part(p):
    if CAMEL.match(p) and re.search(r"[a-z0-9][A-Z]", p):
        return re.sub(r"(?<=[a-z0-9])([A-Z])", lambda m: "_" + m.group(1).lower(), p)
    return p


def word(m):
    w = m.group(0)
    return FACTS[w] if w in FACTS else "-".join(part(p) for p in w.split("-"))


def main():
    files = glob.glob("crates/*/specs/**/*.antt", recursive=True)
    files += glob.glob("crates/*/proofs/**/*.antt", recursive=True)
    files += glob.glob("crates/*/src/*.rt")
    for f in sorted(files):
        with open(f, encoding="utf-8") as h:
            old = h.read()
        if f.endswith(".rt"):
            # strings stay
            new = "".join(p if i % 2 else WORD.sub(word, p) for i, p in enumerate(re.split(r'("(?:[^"\\\n]|\\.)*")', old)))
        else:
            new = old
            lemma = LEMMAS.get(f.split("/")[1])
            if lemma:
                new = re.sub(rf"(?<![.\w\-]){lemma}(?![\w\-])", lemma + "_lem", new)
            new = WORD.sub(word, new)
        if new != old:
            with open(f, "w", encoding="utf-8") as h:
                h.write(new)
            print(f)


if __name__ == "__main__":
    sys.exit(main())
