"""Builds the programs that run the source's text beside the proved library: the oracle, the library with its package for Rust, and over
both the crate `bench` with its programs. For bench/run and oracle/scale."""
import os
import pathlib
import shutil
import subprocess
import sys

ORACLE = pathlib.Path(__file__).resolve().parent
REPOSITORY = ORACLE.parent
BENCH = REPOSITORY / "bench"
# the oracle's modules that the crate holds beside its own
MODULES = ["factor_cases", "factors", "plan_cases", "plans", "run", "values"]


def run(command, folder=REPOSITORY, **more):
    if subprocess.run([str(c) for c in command], cwd=folder, **more).returncode != 0:
        sys.exit(f"{pathlib.Path(sys.argv[0]).name}: {' '.join(str(c) for c in command)} failed")


def settings(out):
    """What cargo is run with: it finds the library, and those that stand in OUT."""
    made = dict(os.environ)
    made["CARGO_TARGET_DIR"] = str(out / "target")
    made["BEYQALOOSH_LIB"] = str(REPOSITORY / "target" / "lib")
    made["RUSTFLAGS"] = f"-L native={out}"
    return made


def assemble(out):
    """The crate in OUT, over the oracle there and a copy of the package."""
    crate, package = out / "bench", out / "beyqaloosh"
    for folder in [crate, package]:
        shutil.rmtree(folder, ignore_errors=True)
    shutil.copytree(REPOSITORY / "rust", package)
    shutil.copytree(BENCH / "src", crate / "src")
    shutil.copytree(ORACLE / "at_scale", crate / "src" / "bin" / "scale")
    for module in MODULES:
        shutil.copyfile(ORACLE / "src" / f"{module}.rs", crate / "src" / f"{module}.rs")
    shutil.copyfile(BENCH / "manifest.toml", crate / "Cargo.toml")
    return crate


def build(source, out, programs):
    """Builds these programs in OUT and gives the path of each. The oracle's answers are compared with those kept here."""
    run([ORACLE / "build", source, out, "--check"], stdout=subprocess.DEVNULL)
    run([REPOSITORY / "tools" / "build"])
    crate = assemble(out)
    for program in programs:
        run(["cargo", "build", "--release", "--offline", "--quiet", "--jobs", "1", "--bin", program], crate, env=settings(out))
    return [out / "target" / "release" / program for program in programs]
