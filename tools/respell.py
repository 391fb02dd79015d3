#!/usr/bin/env python3
"""Spells the repository's own definitions, lemmas, fields and import aliases as Rattle does, once: types in upper camel
case, all else in snake case. Names of src/ functions, strings, inputs and outputs stay.

usage: tools/respell.py [--dry]     at the top of the repository

A name is looked up a file at a time: it is ours there if the file declares it or imports it from a crate of crates.txt.
Goals and labels that the check makes are never ours.
"""
import glob
import os
import re
import sys

WORD = r"[^\s(){}.;,@\"«»\[\]|:<>&=+*/^?!λ]+"
TOKEN = re.compile(rf"(?<![\w'’.\-])({WORD})")
# Names that would meet another one, and what they are called instead.
APART = {
    "entry-fine": "entry_fine_is",
    "flag-fine": "flag_fine_is",
}


def respelled(name):
    if name in APART:
        return APART[name]
    if name[:1].isupper():
        if "-" not in name:
            return name
        return "".join(p[:1].upper() + p[1:] for p in name.split("-"))
    words = re.sub(r"(?<=[a-z0-9])([A-Z])", lambda m: "_" + m[1].lower(), name)
    return words.replace("-", "_")


def needs(name):
    return re.search(r"[a-zA-Z]", name) is not None and respelled(name) != name


def crates():
    lines = (l.split("#")[0].strip() for l in open("crates.txt"))
    return [l.split(":")[0].split()[0] for l in lines if l]


USE = re.compile(r"^ *(?:ghost )?use (Rattle\.[^\s;{]+?)(?:\.\{([^}]*)\})?(?: as (\S+?))?;?$", re.M)
DECLARED = re.compile(r"^(?:abbrev |unfoldable |pub |data |record |syntax )*([^\s(){}]+)(?= (?:[^=\n]*? )?:)", re.M)
INNER = re.compile(r"^ +(?:abbrev |unfoldable |pub )*([^\s(){}]+) :", re.M)
SOURCE_MEMBER = re.compile(r"\bghost (\w+): ")


def declared(text):
    return {n for n in DECLARED.findall(text) if not n.startswith("--")}


def made(text):
    """The answers to goals that the check names."""
    return {m[1] for m in re.finditer(r"^(?:abbrev |pub )*(\S+) : goal\.(\S+)", text, re.M) if m[1] == m[2]}


def fields(text):
    found, inside = set(), False
    for line in text.split("\n"):
        if re.match(r"(?:pub )?(?:data|record) |(?:pub )?(?:data|record)$", line):
            inside = True
        elif line and not line.startswith(" "):
            inside = False
        elif inside:
            m = re.match(r"  (?:pub )?([a-z][^\s(){}]*) :", line)
            if m:
                found.add(m[1])
    return found


def imports(text, own):
    ours, theirs = set(), set()
    for path, names, alias in USE.findall(text):
        crate = path.split(".")[1]
        into = ours if crate in own else theirs
        if names:
            for one in names.split(","):
                one = one.strip()
                if " as " in one:
                    name, local = one.split(" as ")
                    into.add(name.strip())
                    ours.add(local.strip())
                elif one:
                    into.add(one)
        elif alias:
            ours.add(alias)
    return ours, theirs


LEMMAS = re.compile(r"/(?:specs|proofs)/[A-Z]\w*\.antt$")


def main():
    dry = "--dry" in sys.argv
    own = crates()
    files = []
    for c in own:
        for d in ("specs", "proofs", "src"):
            for kind in ("antt", "rt"):
                files += glob.glob(f"crates/{c}/{d}/**/*.{kind}", recursive=True)
    texts = {f: open(f).read() for f in files}
    inner, members = set(), set()
    for f, t in texts.items():
        if f.endswith(".antt") and not re.search(r"/(Answers|Invariants)\.antt$", f):
            inner |= {n for n in fields(t) if needs(n)}
        if f.endswith(".rt"):
            members |= {n for n in SOURCE_MEMBER.findall(t) if needs(n)}
    anywhere = inner | members
    said = []
    for f, text in sorted(texts.items()):
        ours, theirs = imports(text, own)
        if f.endswith(".antt"):
            ours |= declared(text) - made(text)
        if LEMMAS.search(f):
            ours |= set(INNER.findall(text))
        here = {n for n in ours if needs(n)} - (theirs - ours)
        old_words = set(TOKEN.findall(text))

        def turn(m):
            name = m[0]
            return respelled(name) if name in here or name in anywhere else name

        new = []
        for line in text.split("\n"):
            ghost = f.endswith(".antt") or re.search(r"\b(?:ghost|requires|ensures)\b", line) or "≡" in line or "↦" in line
            comment = line.lstrip().startswith(("--", "//"))
            if ghost and not comment:
                line = re.sub(rf"(?<![\w'.\-]){WORD}", turn, line)
                # behind a dot: fields and members of ours, and a name at the end of a path of ours
                line = re.sub(rf"(?<=[\w)'])\.({WORD})", lambda m: "." + (respelled(m[1]) if m[1] in anywhere else m[1]), line)
            new.append(line)
        out = "\n".join(new)
        for n in sorted(here | (anywhere & old_words)):
            r = respelled(n)
            if r in old_words and n in old_words:
                said.append(f"{f}: {n} meets {r}")
        if out != text:
            if not dry:
                open(f, "w").write(out)
    print("\n".join(said))


main()
