//! Says where `libplanner_c.a` is: in the folder that `TUZHELAR_LIBRARY_DIR` names, otherwise in
//! `target/staticlib` of the repository, where `tools/library` writes it.
//!
//! The library defines six names and calls `memcpy` and `memset` alone. It has no panic handler and
//! nothing else that Rust's standard library has too, so it is linked as it is.

use std::env;
use std::path::PathBuf;

const VARIABLE: &str = "TUZHELAR_LIBRARY_DIR";
const LIBRARY: &str = "libplanner_c.a";

fn main() {
    println!("cargo::rerun-if-env-changed={VARIABLE}");
    let cargo = |name: &str| env::var(name).unwrap_or_default();
    if cargo("CARGO_CFG_TARGET_ARCH") != "x86_64" || cargo("CARGO_CFG_TARGET_OS") != "linux" {
        println!("cargo::error={LIBRARY} is for x86-64 Linux alone");
        return;
    }
    let folder = match env::var_os(VARIABLE) {
        Some(folder) => PathBuf::from(folder),
        None => PathBuf::from(cargo("CARGO_MANIFEST_DIR")).join("../../target/staticlib"),
    };
    println!("cargo::rerun-if-changed={}", folder.join(LIBRARY).display());
    match folder.canonicalize() {
        Ok(folder) if folder.join(LIBRARY).is_file() => {
            println!("cargo::rustc-link-search=native={}", folder.display());
            println!("cargo::rustc-link-lib=static=planner_c");
        }
        _ => println!(
            "cargo::error={LIBRARY} is not in {}: run `tools/library` in the repository, \
             or set {VARIABLE} to the library's folder",
            folder.display()
        ),
    }
}
