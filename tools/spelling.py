#!/usr/bin/env python3
"""Brings the repository's own definitions and lemmas to the spelling of the kit of 2026-11: words in snake case.

usage: python3 tools/spelling.py            at the top, once, after the kit's port.py
       python3 tools/spelling.py --table    prints the old and the new names, and writes nothing

A definition in camel case (`settingsGood`) gets underscores (`settings_good`). A lemma with dashes keeps them where each part is the
name of a definition (`flat-length`), and gets underscores else (`rest_at`); one that would have its definition's name ends in
`_lem`. Types, facts and modules keep their names, and so do functions of src/, their fields, and whatever Rattle makes. Only .antt
and .rt files turn: pages and must-fail edits were brought over apart.
"""

import collections
import glob
import re
import sys

WORD = re.compile(r"[^\s(){}.;,@\"«»`|/]+")
# names of the library that own lemmas are about
LIBRARY = "length append take drop set sets get_or paste sum count all any min max suc cond eqb ltb leb join".split()
# fields and variables that would have the name of the definition in their own type
CHOSEN = {"known-set": "set_known", "in-range": "every_in_range"}
# the types of the goals that Rattle makes
MADE = re.compile(r"(tie|goal|given)\.\w")


def declared(text):
    """The names that a file declares: at the head of a line, before their type, and fields and constructors."""
    for line in text.split("\n"):
        if line.lstrip().startswith("--"):
            continue
        m = re.match(r"^(\s*)((?:(?:abbrev|unfoldable|opaque|pub|record|data)\s+)*)([^\s:(){},;.]+)((?: [({][^)}]*[)}])*) : (.*)$", line)
        if m and not MADE.match(m[5]) and m[3] not in ("let", "where"):
            yield m[3]


def snake(name):
    return re.sub(r"(?<=[a-z0-9])([A-Z])", lambda m: "_" + m[1].lower(), name)


def joined(name, names):
    """A name with dashes: they stay if each part is the name of a definition."""
    parts, out = name.split("-"), []
    while parts:
        n = next((n for n in range(len(parts), 0, -1) if "_".join(parts[:n]) in names), 0)
        if not n:
            return name.replace("-", "_")
        out.append("_".join(parts[:n]))
        parts = parts[n:]
    return "-".join(out)


def libs():
    return sorted(glob.glob("crates/*/specs/*.antt") + glob.glob("crates/*/proofs/*.antt"))


def read(path):
    with open(path, encoding="utf-8") as it:
        return it.read()


def fields(text):
    """The fields of the records that a file declares."""
    inside = -1
    for line in text.split("\n"):
        indent = len(line) - len(line.lstrip())
        if inside >= 0 and line.strip() and indent <= inside:
            inside = -1
        m = re.match(r"\s*(?:pub )?([^\s:(){},;.]+) : ", line)
        if inside >= 0 and m:
            yield m[1]
        if re.match(r"\s*(?:abbrev |pub )*record ", line):
            inside = indent


def table():
    texts = {path: read(path) for path in libs()}
    found = {name for text in texts.values() for name in declared(text)}
    of_specs = {name for path, text in texts.items() if "/specs/" in path for name in declared(text) if "-" not in name and not name[0].isupper()}
    plain = {snake(name) for name in of_specs}
    new = {}
    for name in found:
        if name in CHOSEN:
            new[name] = CHOSEN[name]
        elif re.fullmatch(r"[a-z][A-Za-z0-9]*[A-Z][A-Za-z0-9]*", name):
            new[name] = snake(name)
        elif re.fullmatch(r"[a-z][a-z0-9_]*(-[a-z0-9_]+)+", name):
            to = joined(name, plain | set(LIBRARY))
            # a lemma that would have its definition's name
            new[name] = to + "_lem" if to in plain else to
        elif name in plain - of_specs:
            new[name] = name + "_lem"
    return {old: to for old, to in new.items() if to != old}


def own_words(text, names):
    """In a proof of a function the names of its goals stay."""
    goals = set(re.findall(r"^(?:pub )?([^\s:]+) : (?:tie|goal|given)\.", text, re.M)) | set(re.findall(r"^(?:abbrev )?(?:pub )?([^\s:]+) : \{M", text, re.M))
    return {old: to for old, to in names.items() if old not in goals}


def turned(text, names, own_fields):
    """Each whole word of the table; behind a dot only a field of an own record, or the last part of a path of the repository."""

    def one(m):
        word = m[0]
        if word not in names:
            return word
        if m.start() and text[m.start() - 1] == ".":
            head = re.search(r"[^\s(){};,@\"«»`|/]*$", text[: m.start() - 1])[0]
            if head.startswith("Rattle"):
                return word if text[m.end() : m.end() + 1] == "." else names[word]
            return names[word] if word in own_fields else word
        return names[word]

    return WORD.sub(one, text)


def main():
    names = table()
    if "--table" in sys.argv:
        for old in sorted(names):
            print(old, names[old])
        return
    of_records = {name for path in libs() for name in fields(read(path))}
    camel = {old: to for old, to in names.items() if re.search("[A-Z]", old)}
    for path in sorted(glob.glob("crates/**/*.antt", recursive=True) + glob.glob("crates/**/*.rt", recursive=True)):
        text = read(path)
        # source has no name with a dash, and one with an underscore is a function's
        here = camel if path.endswith(".rt") else own_words(text, names) if re.search(r"/proofs/[^/]+/", path) else names
        now = turned(text, here, of_records)
        if now != text:
            with open(path, "w", encoding="utf-8") as it:
                it.write(now)


if __name__ == "__main__":
    main()
