#!/usr/bin/env python3
"""Spells the names of this repository's own definitions, lemmas, fields and constructors in snake case.

usage: python3 tools/respell.py      at the top of the repository

A name turns where it is declared at the head of a line of a file of specs/ or proofs/ (or as a field or a constructor, or in a block 'module _'), and everywhere it is used: in those files, in the
clauses of src/, and in the code spans of README.md and docs/. The library's AllByRecursion, imported under the name of another of its words, goes by its own. Types and facts keep their capitals. What Rattle makes keeps its name: a declaration at a type 'goal.x' is no name of ours.
A second run changes nothing.
"""

import glob
import re

WORD = re.compile(r"[^\s(){}.;,@\"«»]+")
BLOCK = re.compile(r"^(?:(?:unfoldable |abbrev )?(?:pub )?(?:data|record)|module) (\S+)")
FIELD = re.compile(r"^ {2,4}(?:unfoldable |abbrev )?(?:pub )?([^\s:(){}=]+) :")
ITEM = re.compile(r"^(?:unfoldable |abbrev )?(?:pub )?([^\s:(){}=]+) :(?! goal\.)")
# The lemmas whose plain spelling is a definition's.
LEMMAS = {
    "dependency-at": "dependency_at_lem",
    "exclusion-at": "exclusion_at_lem",
    "no-window": "no_window_lem",
    "record-at": "record_at_lem",
    "task-at": "task_at_lem",
    "task-words": "task_words_lem",
    "window-at": "window_at_lem",
}
# A lemma of one file that is spelled like a definition of another crate.
APART = ("crates/opening/proofs/Reopened.antt", "read_at", "read_at_lem")
# What the pages call by a name that a definition had before.
PAGES = {
    name: None
    for name in "endOf entryOf labelOf lineOf noPart noRows placeOf rowAt rowsOf startOf taskOf wordAt wordBytes inRange".split()
}


def snake(name):
    return re.sub(r"(?<=[a-z0-9])[A-Z]", lambda m: "_" + m[0].lower(), name).replace("-", "_")


def declared(text):
    inside = False
    for line in text.split("\n"):
        if BLOCK.match(line):
            inside = True
            continue
        field = FIELD.match(line) if inside else None
        if field:
            yield field[1]
            continue
        if line and not line.startswith(" "):
            inside = False
        item = ITEM.match(line)
        if item:
            yield item[1]


def by_its_own_name(text):
    alias = "AllByRecursion as All"
    if alias not in text:
        return text
    lines = text.replace(alias, "AllByRecursion").split("\n")
    code = re.compile(r"(?<![\w.-])All(?![\w-])")
    return "\n".join(line if line.lstrip().startswith(("//", "--")) else code.sub("AllByRecursion", line) for line in lines)


def written(path, text, new):
    if new != text:
        with open(path, "w", encoding="utf-8") as f:
            f.write(new)


def read(path):
    with open(path, encoding="utf-8") as f:
        return f.read()


def main():
    path, old, new = APART
    text = read(path)
    if new not in text:
        written(path, text, WORD.sub(lambda m: new if m[0] == old else m[0], text))
    antt = sorted(glob.glob("crates/*/specs/*.antt") + glob.glob("crates/*/proofs/**/*.antt", recursive=True))
    names = {}
    for path in antt:
        for name in declared(read(path)):
            if name in LEMMAS:
                names[name] = LEMMAS[name]
            elif not name[0].isupper() and snake(name) != name:
                names[name] = snake(name)
    together = {}
    for old, new in names.items():
        together.setdefault(new, []).append(old)
    for new, olds in sorted(together.items()):
        if len(olds) > 1:
            print("left: fall together as", new, olds)

    def turn(match):
        return names.get(match[0], match[0])

    for path in antt:
        text = read(path)
        written(path, text, by_its_own_name(WORD.sub(turn, text)))
    ours = {old: new for old, new in names.items() if old not in LEMMAS}
    for path in sorted(glob.glob("crates/*/src/*.rt")):
        text = read(path)
        written(path, text, by_its_own_name(re.sub(r"(?<![\w-])[a-z][A-Za-z-]*(?![\w-])", lambda m: ours.get(m[0], m[0]), text)))
    spans = dict(ours)
    spans.update({name: snake(name) for name in PAGES})
    for path in ["README.md", *sorted(glob.glob("docs/*.md"))]:
        text = read(path)
        written(path, text, re.sub(r"`[^`\n]+`", lambda s: re.sub(r"\b[a-z][A-Za-z]*\b", lambda m: spans.get(m[0], m[0]), s[0]), text))


main()
