#!/usr/bin/env python3
"""include/beyqaloosh.h declares each call that the crates export, with the types of its arguments in their order, and no other. So do the
faces for Rust and Python."""

import importlib.util
import pathlib
import re
import sys

ROOT = pathlib.Path(__file__).resolve().parent.parent
CRATES = sorted(path.name for path in (ROOT / "crates").glob("*_abi"))
EXPORT = re.compile(r'#\[unsafe\(no_mangle\)\]\npub extern "C" fn (\w+)\(([^{]*?)\)\s*->\s*u32')
DECLARED = re.compile(r"^uint32_t (\w+)\(([^;]*)\);", re.M)
NUMBERS = {"usize": "size_t", "f64": "double", "u32": "uint32_t", "u64": "uint64_t", "u8": "uint8_t", "Mark": "uint8_t"}


def in_c(name, kind):
    """The arguments in C of one in Rattle: a number, a slice with its length, or an array."""
    if kind in NUMBERS:
        return [f"{NUMBERS[kind]} {name}"]
    lent, of, count = re.fullmatch(r"&(mut )?\[(\w+)(?:; (\d+))?\]", kind).groups()
    constant = "" if lent else "const "
    if count:
        return [f"{constant}{NUMBERS[of]} {name}[{count}]"]
    return [f"{constant}{NUMBERS[of]} *{name}", f"size_t {name}_len"]


def of_slices(arguments):
    """The arguments in C of those in Rattle or in Rust."""
    return [c for name, kind in re.findall(r"(\w+): ([^,]+),?", arguments) for c in in_c(name, kind.strip())]


def exported():
    """Each exported call with its arguments as C has them."""
    calls = {}
    for crate in CRATES:
        source = (ROOT / "crates" / crate / "src" / "lib.rt").read_text()
        found = EXPORT.findall(source)
        assert len(found) == source.count("no_mangle"), f"{crate}: an export that this test cannot read"
        for call, arguments in found:
            calls[call] = of_slices(arguments)
    return calls


def declared():
    """Each call that the header declares, with its arguments."""
    header = (ROOT / "include" / "beyqaloosh.h").read_text()
    return {call: [" ".join(a.split()) for a in arguments.split(",")] for call, arguments in DECLARED.findall(header)}


def in_rust():
    """Each call that the face for Rust declares, with its arguments as C has them."""
    source = (ROOT / "rust" / "src" / "abi.rs").read_text()
    block = re.search(r"^exported! \{\n(.*?)^\}", source, re.M | re.S)[1]
    found = re.findall(r"fn (\w+)\(([^)]*)\) -> u32;", block)
    assert len(found) == block.count("fn "), "rust/src/abi.rs: a declaration that this test cannot read"
    return {call: of_slices(arguments) for call, arguments in found}


def in_python():
    """Each call that the face for Python declares, with its arguments as C has them."""
    spec = importlib.util.spec_from_file_location("beyqaloosh", ROOT / "python" / "beyqaloosh.py")
    face = importlib.util.module_from_spec(spec)
    spec.loader.exec_module(face)
    return {f"beyqaloosh_{call}": [c for name, kind in parts for c in in_c(name, of_python(kind))] for call, parts in face.CALLS.items()}


def of_python(kind):
    """A kind of the face for Python as Rattle has it."""
    numbers = {"size": "usize", "word": "u32", "float": "f64"}
    if kind in numbers:
        return numbers[kind]
    item, count = re.fullmatch(r"(\w+)(?:\[(\d+)\])?", kind).groups()
    return f"&mut [{item}; {count}]" if count else f"&{'mut ' if kind.isupper() else ''}[{kind.lower()}]"


def report(what, here, there):
    """How many calls are not the same in both."""
    calls = here.keys() | there.keys()
    wrong = sorted(call for call in calls if here.get(call) != there.get(call))
    for call in wrong:
        print(f"{call}\n  {what}: {here.get(call)}\n  header: {there.get(call)}")
    print(f"include/beyqaloosh.h and {what}: {len(calls)} calls, {len(wrong)} wrong")
    return not calls or wrong


def main():
    header = declared()
    wrong = [
        report("the crates' exports", exported(), header),
        report("the face for Rust", in_rust(), header),
        report("the face for Python", in_python(), header),
    ]
    sys.exit(1 if any(wrong) else 0)


if __name__ == "__main__":
    main()
