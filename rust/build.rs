//! Finds libbeyqaloosh.a: in the folder BEYQALOOSH_LIB or, where that is not set, in target/lib of the repository.
use std::path::PathBuf;

fn main() {
    println!("cargo:rerun-if-env-changed=BEYQALOOSH_LIB");
    let beside = || PathBuf::from(env!("CARGO_MANIFEST_DIR")).join("../target/lib");
    let folder = std::env::var_os("BEYQALOOSH_LIB").map_or_else(beside, PathBuf::from);
    let archive = folder.join("libbeyqaloosh.a");
    println!("cargo:rerun-if-changed={}", archive.display());
    if !archive.is_file() {
        eprintln!("beyqaloosh: there is no {}", archive.display());
        eprintln!("Make it by tools/build of the repository, or set BEYQALOOSH_LIB to the folder that has it.");
        std::process::exit(1);
    }
    println!("cargo:rustc-link-search=native={}", folder.display());
    println!("cargo:rustc-link-lib=static=beyqaloosh");
}
