//! Links the proved library that `./library` writes.

use std::env;
use std::path::Path;

fn main() {
    let folder = Path::new(env!("CARGO_MANIFEST_DIR")).join("../../target/staticlib");
    let archive = folder.join("libmortxizal.a");
    println!("cargo::rerun-if-changed={}", archive.display());
    let (arch, os) = (var("CARGO_CFG_TARGET_ARCH"), var("CARGO_CFG_TARGET_OS"));
    if (arch.as_str(), os.as_str()) != ("x86_64", "linux") {
        println!(
            "cargo::error=the proved library is compiled for x86-64 Linux, not for {arch} {os}"
        );
    }
    if !archive.is_file() {
        println!("cargo::error=target/staticlib/libmortxizal.a is missing: run `./library` first");
    }
    println!("cargo::rustc-link-search=native={}", folder.display());
    println!("cargo::rustc-link-lib=static=mortxizal");
    println!("cargo::rustc-env=MORTXIZAL_ARCHIVE={}", archive.display());
}

fn var(name: &str) -> String {
    env::var(name).unwrap_or_default()
}
