#!/usr/bin/env python3
"""Brings the repository's own words to today's spelling, after port.py: definitions and fields in snake case, a lemma's parts too.

usage: tools/spelling.py [--check] FOLDER..     (FOLDER holds crates/; --check writes nothing and lists the names that would fall together)

A word is turned as a whole, wherever it stands in .antt, .rt and .edit files outside quoted text: what is in camel case part by part
(parts are joined by dashes), and a dash in a name that specs/ declares, or that a record of proofs/ has as a field, becomes an underscore.
Types, Rust's names and lemmas' dashes stay. `Rattle.core`, as port.py writes it, is `Rattle.std` here. A module `core` is `cores`, with
its file and its folder of proofs: the library has the old name.
"""
import collections
import glob
import os
import re
import sys

WORD = re.compile(r"[^\W\d](?:[\w'′]|-(?=[\w'′]))*")
QUOTED = re.compile(r'"(?:[^"\\\n]|\\.)*"')
FIELD = re.compile(r"^\s+pub ([^\s:(){}]+) :(?: |$)")
DECLARED = re.compile(r"^\s*(?:abbrev |unfoldable |opaque |pub )*([^\s:(){}]+) :(?: |$)")
# names that port.py turned where the library has them, but not inside a longer name
KEPT = {"getD": "get_or"}
# lemmas that would fall together with a definition
LEMMAS = {"column-of", "column-right", "tree-parent"}
# `core` is the name of a library now: the modules of that name are `cores`
CORES = [
    (re.compile(r"(?<![\w.:])core(?=::)"), "cores"),
    (re.compile(r"(?<=::)core(?![\w-])"), "cores"),
    (re.compile(r"(?<=\bmod )core(?![\w-])"), "cores"),
    (re.compile(r"(?<=\.)core(?=\.[\w+{]|$)"), "cores"),
    (re.compile(r"(?<=src/)core(?=\.rt)"), "cores"),
    (re.compile(r"(?<=proofs/)core(?=/)"), "cores"),
]


def snake(part):
    if part in KEPT:
        return KEPT[part]
    part = re.sub(r"(?<=[a-z0-9])([A-Z])", lambda m: "_" + m.group(1).lower(), part)
    return re.sub(r"(?<=_[a-z])([A-Z])(?![a-z])", lambda m: "_" + m.group(1).lower(), part)


def turned(word, dashed):
    if word in dashed and word not in LEMMAS:
        word = word.replace("-", "_")
    return "-".join(snake(p) if p[:1].islower() else p for p in word.split("-"))


def files(folder):
    for kind in ("specs/**/*.antt", "proofs/**/*.antt", "src/**/*.rt", "must-fail/*.edit"):
        yield from sorted(glob.glob(os.path.join(folder, "crates/*", kind), recursive=True))


def declared(folder):
    """Names with a dash that specs/ declares, or that are fields of a record."""
    found = set()
    for path in files(folder):
        if not path.endswith(".antt"):
            continue
        in_record = False
        for line in open(path, encoding="utf-8"):
            if re.match(r"^\s*(pub )?record\b", line):
                in_record = True
            elif line.strip() and not line.startswith(" "):
                in_record = False
            m = FIELD.match(line) if in_record else (DECLARED.match(line) if "/specs/" in path else None)
            if m and "-" in m.group(1) and m.group(1)[0].isalpha():
                found.add(m.group(1))
    return found


def respell(text, dashed):
    def plain(part):
        part = WORD.sub(lambda m: turned(m.group(0), dashed), part)
        part = part.replace("Rattle.core.", "Rattle.std.")
        for old, new in CORES:
            part = old.sub(new, part)
        return part

    out, last = [], 0
    for m in QUOTED.finditer(text):
        out += [plain(text[last : m.start()]), m.group(0)]
        last = m.end()
    return "".join(out) + plain(text[last:])


def move(folder):
    for old, new in (("src/core.rt", "src/cores.rt"), ("proofs/core", "proofs/cores"), ("proofs/core.antt", "proofs/cores.antt")):
        for path in glob.glob(os.path.join(folder, "crates/*", old)):
            os.rename(path, path[: -len(old)] + new)


def main():
    args = [a for a in sys.argv[1:] if a != "--check"]
    check = "--check" in sys.argv
    for folder in args:
        dashed = declared(folder)
        seen = collections.defaultdict(set)
        for path in files(folder):
            text = open(path, encoding="utf-8").read()
            new = respell(text, dashed)
            if check:
                words = set(WORD.findall(QUOTED.sub("", text)))
                for word in words:
                    to = turned(word, dashed)
                    if to != word and to in words:
                        seen[word, to].add(path)
            elif new != text:
                open(path, "w", encoding="utf-8").write(new)
        if not check:
            move(folder)
        for (word, to), paths in sorted(seen.items()):
            print(f"{word} and {to}: {len(paths)} files: {' '.join(os.path.relpath(p, folder) for p in sorted(paths)[:6])}")
        if check:
            print(len(dashed), "dashed:", " ".join(sorted(dashed)))


main()
