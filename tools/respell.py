#!/usr/bin/env python3
"""Brings the repository's own definitions and lemmas to snake case, once, behind the kit's port.py.

Run at the top of the repository. It respells in every crate
- each name in lower camel case of a .antt file, as `blendAt` to `blend_at`, also within a name
  that is joined by dashes;
- the same names in the `ghost use` lines, clauses and comments of .rt files, and in the `new:` and
  `old:` lines of must-fail edits;
- a lemma whose name would then be that of a definition beside it gets `_lem`.
Functions of src/, exported C names, strings, inputs and outputs keep their names. It prints names
that fall together, and writes the table of names to tools/respelled.txt.
"""
import collections
import os
import re

CAMEL = re.compile(r"(?<![A-Za-z0-9_'])[a-z][a-z0-9]*(?:[A-Z][A-Za-z0-9]*)+(?![A-Za-z0-9_'])")
WORD = re.compile(r"(?<![A-Za-z0-9_'])[a-z][a-z0-9]*(?:_[a-z0-9]+)+(?![A-Za-z0-9_'])")

# A lemma (or a step of one) that shares its file with a definition of the name that it would have.
LEMMAS = {
    "crates/tween/proofs/Ways.antt": ["by_state"],
    "crates/math/proofs/Bytes.antt": ["from_low"],
    "crates/decimal/proofs/Heard.antt": ["heard_all"],
    "crates/capi/proofs/Tracked.antt": ["looped_by"],
    "crates/easing/proofs/Answering.antt": ["with_params"],
    "crates/easing/proofs/kinds/Easing/apply/Proof.antt": ["with_params"],
    "crates/easing/proofs/kinds/Easing/apply_with/Proof.antt": ["with_params"],
}
SPECIAL = {"upTo1024": "up_to_1024"}


def snake(name):
    if name in SPECIAL:
        return SPECIAL[name]
    name = re.sub(r"([a-z0-9])([A-Z])", r"\1_\2", name)
    return re.sub(r"([A-Z])([A-Z])", r"\1_\2", name).lower()


def files(*ends):
    for folder, inner, names in os.walk("crates"):
        inner[:] = sorted(d for d in inner if d != "out")
        for name in sorted(names):
            if name.endswith(ends):
                yield os.path.join(folder, name)


def read(path):
    with open(path, encoding="utf-8") as f:
        return f.read()


def write(path, text):
    with open(path, "w", encoding="utf-8") as f:
        f.write(text)


def main():
    texts = {p: read(p) for p in files(".antt")}
    names = collections.Counter(w for t in texts.values() for w in CAMEL.findall(t))
    table = {w: snake(w) for w in names}
    for path, lemmas in LEMMAS.items():
        for lemma in lemmas if path in texts else []:
            texts[path] = re.sub(rf"(?<![A-Za-z0-9_'.]){lemma}(?![A-Za-z0-9_'])", lemma + "_lem", texts[path])
    for path, text in texts.items():
        there = set(WORD.findall(text))
        for w in sorted(set(CAMEL.findall(text))):
            if table[w] in there:
                print(f"look: {path}: {w} beside {table[w]}")
        write(path, CAMEL.sub(lambda m: table[m.group()], text))
    by_new = collections.defaultdict(set)
    for w, n in table.items():
        by_new[n].add(w)
    for n, ws in by_new.items():
        if len(ws) > 1:
            print(f"fall together: {n}: {sorted(ws)}")
    known = re.compile(r"(?<![A-Za-z0-9_'\"])(" + "|".join(sorted(map(re.escape, table), key=len, reverse=True)) + r")(?![A-Za-z0-9_'\"])")
    for path in files(".rt", ".edit"):
        text = read(path)
        new = known.sub(lambda m: table[m.group()], text)
        if new != text:
            write(path, new)
    os.makedirs("tools", exist_ok=True)
    write("tools/respelled.txt", "".join(f"{w} {n}\n" for w, n in sorted(table.items())))


main()
