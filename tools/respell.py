#!/usr/bin/env python3
"""Brings the repository's own definitions and lemmas to the spelling of today's Rattle.

usage: python3 tools/respell.py      at the top of the repository, once, after the kit's port.py

A definition, lemma or field of specs/ and proofs/ whose name has a dash gets an underscore in its place, and a fact (a name that begins
with a capital) loses the dash and has the next letter in capitals. One that would have the name of a function of src/ gets `_lem` after it.
Goals keep their names, which are made by the check; so do functions of src/, strings, inputs and outputs. It stops, with nothing written,
where two names would fall together.
"""

import glob
import re
import sys

WORD = r"[^\s(){}.,;\"\\⌜⌝«»]+"
SIGNATURE = re.compile(r"(?m)^[ ]*(?:(?:pub|abbrev|unfoldable|record|data|ruleset) )*(" + WORD + r")(?: \([^\n]*?\))?\s+:(?=\s)([^\n]*)")
FUNCTION = re.compile(r"\bfn ([a-z_0-9]+)")
# names that would fall together with a library's, a module's or a type's
APART = {"bit-or": "bit-bit_or", "By-number": "IsByNumber"}
# a fact that was spelled as a value: where it is applied or defined, in the crate that has it
FACT = ("crates/groups/", re.compile(r"\bfive(?= A B C D E\b| : Type 0)|(?<=[{ ])five(?=[,}])"), "OfFive")


def antt():
    return sorted(glob.glob("crates/*/specs/**/*.antt", recursive=True) + glob.glob("crates/*/proofs/**/*.antt", recursive=True))


def functions():
    found = set()
    for path in sorted(glob.glob("crates/*/src/**/*.rt", recursive=True)):
        with open(path, encoding="utf-8") as f:
            found.update(FUNCTION.findall(f.read()))
    return found


def turned(name, taken):
    if name in APART:
        return APART[name]
    if name[0].isupper():
        return "".join(part[:1].upper() + part[1:] for part in name.split("-"))
    new = name.replace("-", "_")
    return new + "_lem" if new in taken else new


def own_names():
    names = set()
    for path in antt():
        with open(path, encoding="utf-8") as f:
            text = f.read()
        for m in SIGNATURE.finditer(text):
            name, statement = m.group(1), m.group(2)
            if "-" in name and "goal." not in statement and re.fullmatch(r"[A-Za-z][A-Za-z0-9'-]*", name):
                names.add(name)
    return names


def parts(text, rt):
    """The text in pieces, with those that may name a definition marked: strings of a source are left."""
    if not rt:
        return [(True, text)]
    return [(i % 2 == 0, piece) for i, piece in enumerate(re.split(r'(b?"(?:[^"\\\n]|\\.)*")', text))]


def main():
    names = own_names()
    taken = functions()
    new = {n: turned(n, taken) for n in names}
    back = {}
    for n, t in sorted(new.items()):
        if t in back:
            sys.exit(f"respell: {n} and {back[t]} would both be {t}")
        back[t] = n
    files = antt() + sorted(glob.glob("crates/*/src/**/*.rt", recursive=True) + glob.glob("crates/*/must-fail/*.edit"))
    word = re.compile(WORD)
    written, clashes = {}, []
    for path in files:
        with open(path, encoding="utf-8") as f:
            text = f.read()
        rt = not path.endswith(".antt")
        pieces = parts(text, rt)
        words = set(w for own, piece in pieces if own for w in word.findall(piece))
        for n in words & names:
            if new[n] in words:
                clashes.append(f"{path}: {n} and {new[n]}")
        turn = lambda m: new.get(m.group(0), m.group(0))
        out = "".join((word.sub(turn, piece) if own else piece) for own, piece in pieces)
        if path.startswith(FACT[0]):
            out = "\n".join(l if l.lstrip().startswith(("//", "--")) else FACT[1].sub(FACT[2], l) for l in out.split("\n"))
        if out != text:
            written[path] = out
    if clashes:
        print("\n".join(clashes))
        sys.exit("respell: names that would fall together; nothing was written")
    for path, out in written.items():
        with open(path, "w", encoding="utf-8") as f:
            f.write(out)
    print(f"respell: {len(names)} names, {len(written)} files")


main()
