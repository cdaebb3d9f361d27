#!/usr/bin/env python3
"""Respells the definitions and lemmas of this repository as today's Rattle spells its own: words in snake case.

usage: tools/port_names.py [TOP]

A dash stays only between the names of two definitions, as in `length-encode`. A definition whose new spelling is a word of src/ already gets
`_lem`; a lemma whose new spelling would fall together with another word keeps its dash. It rewrites specs/, proofs/ and src/ of each crate, the must-fail edits and, between
backquotes, the pages; a second run changes nothing.
"""

import collections
import glob
import os
import re
import subprocess
import sys

DELIMITERS = r"\s(){}\[\];,.⌜⌝λ∷×→¬\"`:"
TOKEN = re.compile(r"[^" + DELIMITERS + r"]+")
SIGNATURE = re.compile(r"^([ \t]*)(?:(?:abbrev|unfoldable|pub) )*([^\s(){}:;,.]+) : (.*)$", re.M)
DECLARED = re.compile(r"^[ \t]*(?:pub )?(?:record|data) ([^\s(){}:;,.]+)", re.M)
# Names that a proof's goals are given by Rattle, not by the repository.
GOAL = re.compile(r"\btie\.")


# Where the new spelling is that of a function of src/ and `_lem`, which such a name gets, would not read.
CHOSEN = {"compareShares": "compare_on_shares"}


def read(path):
    with open(path, encoding="utf-8") as f:
        return f.read()


def snake(word):
    """camelCase in snake case; a capital at the start is a fact's and stays."""
    if word[:1].isupper():
        return word
    return re.sub(r"(?<=[a-z0-9])[A-Z]|(?<=[A-Z])[A-Z](?=[a-z])", lambda m: "_" + m.group().lower(), word)


def respelled(name, words):
    parts = [snake(p) for p in name.split("-")]
    out = parts[0]
    for left, right in zip(parts, parts[1:]):
        joins = left in words and right in words
        out += ("-" if joins else "_") + right
    return out


def library(kit):
    text = read(os.path.join(kit, "rattle", "std", "specs", "Prelude.antt")) if os.path.exists(os.path.join(kit, "rattle", "std", "specs", "Prelude.antt")) else ""
    return set(re.findall(r"[A-Za-z][\w'-]*", text))


def names_of(top):
    """What the repository defines, what of it is a definition of specs/, and what is a field or a constructor there."""
    defined, definitions, fields = collections.OrderedDict(), set(), set()
    for path in sorted(glob.glob(top + "/crates/*/specs/**/*.antt", recursive=True) + glob.glob(top + "/crates/*/proofs/**/*.antt", recursive=True)):
        text = read(path)
        for m in SIGNATURE.finditer(text):
            indent, name, of = m.groups()
            if GOAL.search(of) or name.endswith("-spec") or re.match(r"decreases-|invariant-", name):
                continue
            defined[name] = path
            if "/specs/" in path:
                (fields if indent else definitions).add(name)
        for m in DECLARED.finditer(text):
            defined[m.group(1)] = path
            if "/specs/" in path:
                definitions.add(m.group(1))
    return defined, definitions, fields - definitions


def main(argv):
    top = argv[0] if argv else "."
    kit = os.path.dirname(subprocess.run(["rt", "doc"], capture_output=True, text=True, check=True).stdout.strip())
    std = library(kit)
    defined, definitions, fields = names_of(top)
    words = {snake(n) for n in definitions if "-" not in n} | {"length", "take", "drop", "map", "replicate", "min", "max", "cond", "get_or", "set", "paste"}
    files = []
    for pattern in ("crates/*/specs/**/*.antt", "crates/*/proofs/**/*.antt", "crates/*/src/**/*.rt", "crates/*/must-fail/*.edit"):
        files += sorted(glob.glob(os.path.join(top, pattern), recursive=True))
    texts = {p: read(p) for p in files}
    used = set()
    for p, t in texts.items():
        used.update(TOKEN.findall(t))
    new, kept = {}, []
    # definitions before lemmas, which give way
    for name in sorted(defined, key=lambda n: ("-" in n, n not in definitions and n not in fields)):
        to = CHOSEN.get(name) or respelled(name, set() if name in fields else words)
        if to == name:
            continue
        if (to in used or to in std or to in new.values()) and "-" not in name:
            to += "_lem"
        if to in used or to in std or to in new.values():
            kept.append((name, to))
            continue
        new[name] = to

    def turn(text):
        return TOKEN.sub(lambda m: new.get(m.group(), m.group()), text)

    def antt(text):
        # in a comment a dash may be English
        out = []
        for line in text.splitlines(keepends=True):
            at = re.search(r"(^|\s)--(\s|$)", line)
            if not at:
                out.append(turn(line))
            else:
                code, comment = line[: at.start()], line[at.start():]
                out.append(turn(code) + TOKEN.sub(lambda m: new.get(m.group(), m.group()) if "-" not in m.group() else m.group(), comment))
        return "".join(out)

    def edit(text):
        # what says the slip and what refuses it stays
        return "".join(turn(line) if re.match("(old|new):", line) else line for line in text.splitlines(keepends=True))

    for p, t in texts.items():
        to = antt(t) if p.endswith(".antt") else edit(t) if p.endswith(".edit") else turn(t)
        if to != t:
            with open(p, "w", encoding="utf-8") as f:
                f.write(to)
    pages = [os.path.join(top, "README.md")] + sorted(glob.glob(top + "/docs/*.md")) + sorted(glob.glob(top + "/tools/**/*.md", recursive=True))
    for p in pages:
        t = read(p)
        to = re.sub(r"`[^`\n]*`", lambda m: turn(m.group()), t)
        if to != t:
            with open(p, "w", encoding="utf-8") as f:
                f.write(to)
    for name, to in new.items():
        print(name, to)
    for name, to in kept:
        print("kept:", name, "not", to, file=sys.stderr)


if __name__ == "__main__":
    main(sys.argv[1:])
