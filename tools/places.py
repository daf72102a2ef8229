#!/usr/bin/env python3
"""Lists the places in crates/*/src/*.rt where an older form may stand, point by point (docs/DESIGN-PASS.md says what each point asks).

    python3 tools/places.py            the counts
    python3 tools/places.py 3          the places of point 3 (1 to 8)

A place is found by its text alone, so it is a place to look at, and some of them stand with a reason: a line `// Kept: ..` beside it.
"""
import collections
import glob
import os
import re
import sys

os.chdir(os.path.join(os.path.dirname(os.path.abspath(__file__)), ".."))
FN = re.compile(r"^( *)(pub(?:\(crate\))? )?(extern \"C\" )?fn (\w+)(<[^(]*>)?\(((?:[^{;\[\]]|\[(?:[^\[\]]|\[[^\[\]]*\])*\])*?)\)(?: -> ((?:[^{;\[\]]|\[(?:[^\[\]]|\[[^\[\]]*\])*\])*?))?\s*\n?((?:\s+(?:requires|ensures)[^\n]*\n|\s*//[^\n]*\n)*)\s*\{", re.M)


def sources():
    for path in sorted(glob.glob("crates/*/src/*.rt")):
        yield path, open(path).read()


def line(text, at):
    return text.count("\n", 0, at) + 1


def body(text, start):
    """The text of the braces that open just before start."""
    depth, at = 1, start
    while depth and at < len(text):
        depth += {"{": 1, "}": -1}.get(text[at], 0)
        at += 1
    return text[start:at]


def functions():
    for path, text in sources():
        for m in FN.finditer(text):
            yield path, line(text, m.start(4)), m.group(4), m.group(6) or "", (m.group(7) or "").strip(), m.group(8) or "", body(text, m.end())


def outcomes():
    """Enums one of whose cases is what a call accepts, or an end, and whose others are refusals or nothing."""
    for path, text in sources():
        for m in re.finditer(r"^ *(?:pub )?enum (\w+) \{\n", text, re.M):
            cases = body(text, m.end())
            if re.search(r"^ *(Accepted|Met|Done|Same|End)\b|^ *Stored \{", cases, re.M):
                yield f"{path}:{line(text, m.start())}: enum {m.group(1)}"


def sentinels():
    """Searches that answer the end for `none`, and structs with a flag beside a value."""
    for path, at, name, _, result, _, _ in functions():
        if re.match(r"(first|find)_", name) and result in ("usize", "u32") and name not in ("first_length", "first_line"):
            yield f"{path}:{at}: fn {name} -> {result}"
    for path, text in sources():
        for m in re.finditer(r"^ *(?:pub )?struct \w+[^{;]*\{\n", text, re.M):
            for f in re.finditer(r"^ *(?:pub )?is: bool", body(text, m.end()), re.M):
                yield f"{path}:{line(text, m.end() + f.start())}: a flag beside a value"


def numbers():
    """Numbers for kinds and refusals: parameters, fields and results."""
    for path, text in sources():
        for m in re.finditer(r"\b(kind|op|mode|code|number): (usize|u32|u8|u64)\b", text):
            yield f"{path}:{line(text, m.start())}: {m.group(0)}"


def shape(code):
    """A body with its names in the order of their first use, its numbers alike, without its casts."""
    names = {}
    code = re.sub(r"\bwide\(([^()]*)\)|\b(\w+(?:\[[^\[\]]*\])?) as (?:usize|u64|u32|u8)\b", lambda m: m.group(1) or m.group(2), code)
    tokens = re.findall(r"[A-Za-z_]\w*|\d[\w.]*|[^\sA-Za-z0-9_]", re.sub(r"//[^\n]*", "", code))
    keep = {"let", "mut", "if", "else", "while", "for", "in", "match", "return", "true", "false", "as"}
    out = []
    for t in tokens:
        if re.match(r"\d", t):
            out.append("0")
        elif re.match(r"[A-Za-z_]", t) and t not in keep:
            out.append(names.setdefault(t, f"n{len(names)}"))
        else:
            out.append(t)
    return " ".join(out), len(tokens)


def twins():
    """Functions whose bodies are alike but for names and numbers."""
    groups = collections.defaultdict(list)
    for path, at, name, _, _, _, code in functions():
        form, size = shape(code)
        if size >= 25:
            groups[form].append(f"{path}:{at}: fn {name}")
    for form, places in sorted(groups.items(), key=lambda g: g[1]):
        if len(places) > 1:
            yield from places


def loops():
    for path, text in sources():
        for m in re.finditer(r"^ *(?:'\w+: )?(while|loop)\b[^\n]*", text, re.M):
            yield f"{path}:{line(text, m.start())}: {m.group(0).strip()}"


def by_hand():
    """Equality, copying, conversion and printing written by hand."""
    for path, at, name, _, _, _, _ in functions():
        if re.match(r"(same|equal|is_same|copy|cmp|wide$|long|size$|print_|name(_|$)|of_|from_(?!left|right)|to_)", name):
            yield f"{path}:{at}: fn {name}"


def together():
    """Functions of eight parameters or more, and facts that three contracts or more ask for."""
    for path, at, name, args, _, _, _ in functions():
        n = len([a for a in args.split(",") if a.strip()])
        if n >= 8:
            yield f"{path}:{at}: fn {name}, {n} parameters"


def facts():
    asked = collections.Counter()
    for _, _, _, _, _, clauses, _ in functions():
        for m in re.finditer(r"requires(?: \w+)? \{ (.*) \}", clauses):
            for fact in m.group(1).split(" × "):
                asked[fact.strip().strip("()").strip()] += 1
    for fact, n in asked.most_common():
        if n >= 3:
            yield f"{n} contracts: {fact}"


def buffers():
    """Buffers with a length beside them: arrays of a fixed size with how far they are used, and slices with their count."""
    for path, at, name, args, _, _, _ in functions():
        if re.search(r"&(mut )?\[\w+; \d+\][^,]*, *(\w*upto|upto|n|k\d*|m|len|count): usize", args) or re.search(r"(text|sheet|told): &\[u8\], (\w+): usize", args):
            yield f"{path}:{at}: fn {name}({' '.join(args.split())})"


def switches():
    """Which step to run, told by a number."""
    for path, text in sources():
        for m in re.finditer(r"^ *(?:match|if) (?:h\.)?(op|kind|step|which)\b[^\n]*", text, re.M):
            yield f"{path}:{line(text, m.start())}: {m.group(0).strip()}"


def answers():
    for path in sorted(glob.glob("crates/*/proofs/**/*.antt", recursive=True)):
        for m in re.finditer(r"^([A-Za-z_][\w-]*-\d+) :", open(path).read(), re.M):
            yield f"{path}: {m.group(1)}"


POINTS = {
    "1 outcomes like Option or Result": outcomes,
    "1 sentinels and flags": sentinels,
    "1 numbers for kinds or refusals": numbers,
    "2 twins": twins,
    "3 loops by hand": loops,
    "4 by hand": by_hand,
    "5 parameters together": together,
    "5 facts in three contracts or more": facts,
    "6 buffers with a length beside": buffers,
    "7 switches": switches,
    "8 lemmas once a place": answers,
}

if __name__ == "__main__":
    for point, places in POINTS.items():
        found = list(places())
        if len(sys.argv) == 1:
            print(f"{len(found):5}  {point}")
        elif point.startswith(sys.argv[1]):
            print(f"{point}: {len(found)}")
            print("\n".join(found))
