//! Finds libbogtrumpet.a: in the folder that `BOGTRUMPET_LIB_DIR` names, or where `make` of the repository puts it.

use std::path::PathBuf;
use std::{env, process};

fn main() {
    println!("cargo::rerun-if-env-changed=BOGTRUMPET_LIB_DIR");
    let target = env::var("TARGET").unwrap_or_default();
    if !target.starts_with("x86_64-") || !target.contains("-linux-") {
        eprintln!("libbogtrumpet.a is for x86-64 and ELF alone, not for {target}");
        process::exit(1);
    }
    let package = PathBuf::from(env::var_os("CARGO_MANIFEST_DIR").expect("cargo names the package's folder"));
    let folder = env::var_os("BOGTRUMPET_LIB_DIR").map_or_else(|| package.join("../target/staticlib"), PathBuf::from);
    let archive = folder.join("libbogtrumpet.a");
    if !archive.is_file() {
        eprintln!(
            "no {}: run make in the repository, or name the archive's folder in BOGTRUMPET_LIB_DIR",
            archive.display()
        );
        process::exit(1);
    }
    println!("cargo::rerun-if-changed={}", archive.display());
    println!("cargo::rustc-link-search=native={}", folder.display());
    println!("cargo::rustc-link-lib=static=bogtrumpet");
}
