"""The proved library compiled so that its parts can be told apart: the compiler joins nearly all of a call into one function, and a profile of
that says nothing. Here the functions named below are kept by themselves, which costs a few instructions at each call of one. For bench/run."""
import os
import pathlib
import re
import shutil
import subprocess
import sys
import tempfile

import beside

sys.path.append(str(beside.REPOSITORY / "tools"))
import archive as archives  # noqa: E402

# Callgrind counts each turn of the processor's own fill, one a byte, as an instruction, so where instructions are counted the C library is told to fill by
# stores, as it does with fewer bytes.
COUNTING = {"GLIBC_TUNABLES": "glibc.cpu.x86_rep_stosb_threshold=1073741824"}

# the functions that are kept apart, by the archive that has them
KEPT = {
    "plan_abi": [
        "checks::check_plan", "analysis::cores::permute", "elimination_tree::cores::new_core", "symbolic::cores::counts",
        "fill_rows::cores::fill", "scratch::cores::clear_plan",
    ],
    "factor_cache_abi": [
        "checks::check_system", "analysis::cores::analyze", "analysis::cores::store", "factor_setup::cores::write_tables",
        "reach::cores::scan", "load_column::cores::load_column", "work_column::cores::work_column", "row_products::cores::apply_rows",
        "column_products::cores::scaled_by_d", "tiled_product::cores::sub_mat_mat_t_core", "tiled_multiply::cores::multiply",
        "block_diag_ldlt::cores::decompose_core", "tiled_right::cores::ldlt_right_matsolve_tiled", "finish_column::cores::finish_column",
        "keep_column::cores::keep_column", "factor_columns::cores::factor_columns", "factor_cleared::cores::clear_work",
    ],
    "solve_abi": [
        "solve_checks::check_solve", "factor_order::cores::area_under", "factor_order::cores::order_is", "factor_order::cores::offsets_are",
        "factor_match::cores::first_wrong", "solve_core::cores::solve_tables", "right_side::cores::permute", "right_side::cores::unpermute",
        "forward::cores::forward", "block_solves::cores::solve_blocks", "backward::cores::backward",
    ],
}

# what a function is counted as, by its name or by its crate; the others, and what is joined into the exported call, are "all else"
PARTS = {
    "plan": {
        "rows of L counted as the tree is climbed": ["symbolic"],
        "rows of L stored": ["fill_rows"],
        "the tree": ["elimination_tree"],
        "the permuted pattern": ["analysis", "pattern", "order"],
        "checks": ["checks", "tables", "columns"],
    },
    "factor": {
        "block products": ["tiled_product"],
        "the loops around them and the walk": ["row_products", "work_column", "reach_products", "reach"],
        "Q and Q d": ["tiled_multiply", "keep_column", "block_product", "column_products"],
        "rows of L solved": ["tiled_right", "finish_column"],
        "decompositions": ["block_diag_ldlt", "dense_ldlt", "dense_rows"],
        "columns loaded": ["load_column"],
        "checks and plan": ["checks", "tables", "columns", "analysis", "symbolic", "fill_rows", "pattern", "elimination_tree", "factor_setup", "buckets", "order"],
    },
    "solve": {
        "forward": ["forward", "tiled_vector::cores::sub_rows"],
        "blocks": ["block_solves", "dense_solve"],
        "backward": ["backward", "tiled_vector::cores::sub_columns"],
        "checks of the tables": ["solve_checks", "tables", "columns"],
        "the factor held against its system": ["factor_match", "match_rows", "factor_order"],
        "order of the scalars": ["solve_core", "right_side", "scalars"],
    },
}
# what clears and copies memory is the C library's
MEMORY = ("memset", "memcpy", "memmove")

# In the place of the kit's clang: reads the module, marks the functions, and goes on as told.
CLANG = """#!/usr/bin/env python3
import os, re, subprocess, sys
clang, kept = {clang!r}, {kept!r}
words = sys.argv[1:]
module = words[words.index("ir") + 1]
text = subprocess.run([clang, "--no-default-config", "-S", "-emit-llvm", "-O0", "-x", "ir", module, "-o", "-"], check=True, capture_output=True, text=True).stdout
for name in kept:
    text, found = re.subn(r'(define internal [^\\n]*@"%s"\\([^\\n]*\\)) #0 ' % re.escape(name), r"\\1 #0 noinline ", text)
    if found != 1:
        sys.exit("bench/run: the library has no function " + name)
with open(module + ".ll", "w") as out:
    out.write(text)
words[words.index("ir") + 1] = module + ".ll"
os.execv(clang, [clang] + words)
"""


def archive(crate, out):
    """The archive of an exporting crate, its parts apart, as `rt lib` would make it."""
    made = out / f"lib{crate}.a"
    made.unlink(missing_ok=True)
    # links stand in no folder of the repository: rt ci refuses them
    with tempfile.TemporaryDirectory() as kept:
        own, tools = archives.kit() / "toolchain", pathlib.Path(kept)
        (tools / "bin").mkdir()
        for part in [*own.iterdir(), *(own / "bin").iterdir()]:
            if part.name not in ("bin", "clang"):
                (tools / part.relative_to(own)).symlink_to(part)
        clang = tools / "bin" / "clang"
        clang.write_text(CLANG.format(clang=str(own / "bin" / "clang"), kept=KEPT[crate]))
        clang.chmod(0o755)
        words = archives.command(crate, made, tools)
        ran = subprocess.run(words, cwd=archives.ROOT / "crates" / crate, stdin=subprocess.DEVNULL, capture_output=True, text=True)
    if ran.returncode != 0:
        sys.exit(f"bench/run: {crate} could not be compiled: {ran.stdout[-800:]}{ran.stderr[-800:]}")
    return made


def program(out):
    """The program `count` over a library whose parts are kept apart. The library itself is built already."""
    apart = out / "apart"
    apart.mkdir(parents=True, exist_ok=True)
    library = apart / "libbeyqaloosh.a"
    shutil.copyfile(beside.REPOSITORY / "target" / "lib" / "libbeyqaloosh.a", library)
    for crate in KEPT:
        made = archive(crate, apart)
        beside.run(["ar", "x", made], folder=apart)
        beside.run(["ar", "r", library, f"{crate}.o"], folder=apart, stderr=subprocess.DEVNULL)
    settings = beside.settings(out)
    settings.update(BEYQALOOSH_LIB=str(apart), CARGO_TARGET_DIR=str(apart / "target"))
    beside.run(["cargo", "build", "--release", "--offline", "--quiet", "--jobs", "1", "--bin", "count"], out / "bench", env=settings)
    return apart / "target" / "release" / "count"


def counted(program, part, night, out):
    """Instructions of one call by what they are counted as, and their sum."""
    kept = out / "apart" / "callgrind.out"
    command = ["valgrind", "--tool=callgrind", "--toggle-collect=counted", f"--callgrind-out-file={kept}", program, "ours", part] + night
    beside.run(command, env={**os.environ, **COUNTING}, stdout=subprocess.DEVNULL, stderr=subprocess.DEVNULL)
    text = subprocess.run(["callgrind_annotate", "--threshold=100", str(kept)], check=True, capture_output=True, text=True).stdout
    of = {word: name for name, words in PARTS[part].items() for word in words}
    sums = dict.fromkeys([*PARTS[part], "memory cleared and copied", "all else"], 0)
    for number, name in re.findall(r"^\s*([0-9,]+) \([ 0-9.]+%\)\s+\S*?:(\S+)", text, re.MULTILINE):
        memory = any(word in name for word in MEMORY)
        part_of = of.get(name) or of.get(name.split("::")[0], "all else")
        sums["memory cleared and copied" if memory else part_of] += int(number.replace(",", ""))
    found = re.search(r"^\s*([0-9,]+) .*PROGRAM TOTALS", text, re.MULTILINE)
    if not found:
        sys.exit("bench/run: callgrind_annotate told nothing")
    total = int(found[1].replace(",", ""))
    sums["all else"] += total - sum(sums.values())
    return sums, total
