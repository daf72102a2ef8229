#!/usr/bin/env python3
"""Makes the archive of each crate that exports calls, crates/NAME/out/libNAME.a, over the libraries that rt ci has proved and built just
now in this folder. rt lib makes the same, but proves those libraries once more where it did not build them itself. For tools/build, which
takes rt lib where this ends with another status than 0; bench/apart.py takes `command`.
"""
import concurrent.futures
import os
import pathlib
import re
import subprocess
import sys

ROOT = pathlib.Path(__file__).resolve().parent.parent


def kit():
    """The folder of the kit."""
    return pathlib.Path(subprocess.run(["rt", "doc"], check=True, capture_output=True, text=True).stdout.strip()).parent


def listed():
    """What crates.txt lists for each crate."""
    lines = [line.partition("#")[0] for line in (ROOT / "crates.txt").read_text(encoding="utf-8").splitlines()]
    return {name.split()[0]: used.split() for name, mark, used in (line.partition(":") for line in lines) if mark}


def exporting():
    """The crates that crates.txt lists as static libraries."""
    return re.findall(r"^(\w+) staticlib:", (ROOT / "crates.txt").read_text(encoding="utf-8"), re.MULTILINE)


def below(crate, crates, found=None):
    """The libraries of the repository that a crate uses, by others too, each after those that it uses."""
    found = {} if found is None else found
    for name in crates[crate]:
        if name in crates and name not in found:
            below(name, crates, found)
            found[name] = True
    return list(found)


def place(name):
    """Where rt puts a library."""
    return ROOT / "crates" / name / "out" / "rlib" / f"{name}.rlib"


def command(crate, made, toolchain=None):
    """The call that proves an exporting crate, over libraries that are built, and compiles it. To be run in the crate's folder."""
    own, crates = kit(), listed()
    words = [own / "bin" / "rattle", "build", "--crate-name", crate, "src/lib.rt", "--crate-type", "staticlib"]
    for name in ["std", *crates[crate]]:
        words += ["--extern", f"{name}={place(name) if name in crates else own / 'rlibs' / f'{name}.rlib'}"]
    for folder in [own / "rlibs", *(place(name).parent for name in below(crate, crates))]:
        words += ["-L", f"dependency={folder}"]
    words += ["--antt-project", own / "rattle" / "logic" / "antt-project.json", "--logic-built", own / "logic_built", "--jobs", "1"]
    words += ["--toolchain", toolchain or own / "toolchain", "--backend", "llvm", "-o", made]
    return [str(word) for word in words]


def archive(crate):
    folder = ROOT / "crates" / crate
    made = folder / "out" / f"lib{crate}.a"
    made.parent.mkdir(exist_ok=True)
    made.unlink(missing_ok=True)
    ran = subprocess.run(command(crate, made), cwd=folder, stdin=subprocess.DEVNULL, stdout=subprocess.PIPE, stderr=subprocess.STDOUT, text=True)
    if ran.returncode or not made.is_file():
        return f"{crate}: no archive\n{ran.stdout}"
    return None


def main():
    crates = listed()
    libraries = {name for crate in exporting() for name in below(crate, crates)}
    # a stamp is rt lib's or rt check's: not all of these libraries are those that rt ci built last
    others = [name for name in libraries if not (place(name) / "format").is_file() or (place(name).parent / "stamp").exists()]
    if others:
        sys.exit(f"not built by rt ci: {' '.join(sorted(others))}")
    with concurrent.futures.ThreadPoolExecutor(len(os.sched_getaffinity(0))) as pool:
        failed = [said for said in pool.map(archive, exporting()) if said]
    if failed:
        sys.exit("\n".join(failed))


if __name__ == "__main__":
    main()
