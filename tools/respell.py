#!/usr/bin/env python3
"""Brings the repository's own definitions and lemmas to the spelling of the installed Rattle.

usage: python3 tools/respell.py            at the top of the repository, once
       python3 tools/respell.py --list     prints old and new names, and changes nothing

Words are in snake case, so `areChildren` becomes `are_children`. A dash joins two names, as in
`length-held`, where both are functions or definitions; any other word of a lemma is added with an
underscore, as in `children_start`. A lemma that would get the name of a definition gets `_lem`.
Fields and constructors have no dash. Names of src/ and names that Rattle makes stay.
"""

import os
import re
import sys

TOKEN = re.compile(r"[\w'◌-]+")
DEF = re.compile(r"^(?P<indent> *)(?P<mods>(?:(?:abbrev|unfoldable|pub|record|data|private|ruleset) )*)(?P<name>[^\s:(){}]+)(?P<rest>(?:\s.*)?\s:(?:\s.*)?)$")
MADE = re.compile(r"^(returns|loop|invariant|decreases|overflow|bounds|slice-bounds|in-|not-|then-|else-|if-|with-names-in|nonzero)")
KEPT = {"some_IsFirst"}
# Functions of the library that lemmas of this repository are named after.
KNOWN = set("length take drop append map get_or set replicate cond add sub suc zero get at cons eq leb eqb ltb le lt or and not".split())
# Lemmas that a definition's new name would hit.
LEMMAS = {word: word + "_lem" for word in ("same_at", "same_names", "after_first", "one_by_one", "node_at", "text_at")}


def sources(ends):
    for folder, dirs, files in os.walk("crates"):
        dirs[:] = sorted(d for d in dirs if d not in ("out", "data"))
        for name in sorted(files):
            if name.endswith(ends):
                yield os.path.join(folder, name)


def read(path):
    with open(path, encoding="utf-8") as f:
        return f.read()


def snake(word):
    word = word.replace("getD", "get_or")
    return re.sub(r"(?<=[a-z0-9])([A-Z])", lambda m: "_" + m.group(1).lower(), word)


def is_camel(word):
    return re.match(r"[a-z][\w']*$", word) and re.search(r"[a-z0-9][A-Z]", word)


def declared():
    """Definitions, fields and constructors (with no dash but of theirs), and lemmas, by name."""
    words, parts, lemmas = set(), set(), set()
    for path in sources(".antt"):
        if "/declared/" in path:
            continue
        inside = None
        for line in read(path).split("\n"):
            if re.match(r"^ *(pub )?(record|data) ", line):
                inside = len(line) - len(line.lstrip())
            elif line.strip() and not line.strip().startswith("--") and inside is not None and len(line) - len(line.lstrip()) <= inside:
                inside = None
            m = DEF.match(line)
            if not m or line.lstrip().startswith(("use ", "--", "module ")):
                continue
            name = m.group("name")
            if inside is not None and not re.search(r"record|data", m.group("mods")):
                parts.add(name)
            elif re.search(r"abbrev|unfoldable|record|data", m.group("mods")):
                words.add(name)
            elif len(m.group("indent")) == 0 or m.group("mods"):
                lemmas.add(name)
    return words, parts, lemmas


def joined(name, known):
    pieces = name.split("-")
    out = pieces[0]
    for left, right in zip(pieces, pieces[1:]):
        out += ("-" if left in known and right in known else "_") + right
    return out


def table():
    words, parts, lemmas = declared()
    tokens = set()
    for path in sources((".antt", ".rt", ".edit")):
        tokens |= set(TOKEN.findall(read(path)))
    new = {}
    for word in tokens:
        if is_camel(word) and word not in KEPT:
            new[word] = snake(word)
    known = KNOWN | {new.get(w, w) for w in words | parts if "-" not in w}
    for name in sorted(words | parts | lemmas):
        if "-" not in name or MADE.match(name) or re.search(r"-requires(-\d+)?$", name):
            continue
        base = "-".join(snake(p) if is_camel(p) else p for p in name.split("-"))
        if name in lemmas and name not in words | parts:
            new[name] = joined(base, known)
        else:
            new[name] = base.replace("-", "_")
    taken = {}
    for old in sorted(new):
        if new[old] == old:
            continue
        if "-" in old and old not in parts and (new[old] in tokens or new[old] in taken):
            new[old] = new[old] + "_lem"
        taken[new[old]] = old
    return {o: n for o, n in new.items() if o != n}, parts


def turn(text, new, fields, is_rust):
    def one(m):
        word = m.group(0)
        if word not in new:
            return word
        if "-" in word:
            if is_rust and not text[: m.start()].rsplit("\n", 1)[-1].lstrip().startswith("ghost use"):
                return word
            before = text[: m.start()]
            if before.endswith(".") and word not in fields:
                return word
        return new[word]

    return TOKEN.sub(one, text)


def main():
    new, fields = table()
    if "--list" in sys.argv[1:]:
        for old in sorted(new):
            print(old, new[old])
        return
    for path in sources((".antt", ".rt", ".edit")):
        old = read(path)
        text = old
        if path.endswith(".antt") and "/proofs/" in path:
            text = TOKEN.sub(lambda m: LEMMAS.get(m.group(0), m.group(0)) if not old[: m.start()].endswith(".") else m.group(0), text)
        text = turn(text, new, fields, path.endswith((".rt", ".edit")))
        if text != old:
            with open(path, "w", encoding="utf-8") as f:
                f.write(text)


if __name__ == "__main__":
    main()
