//! Links those of the other stores that are installed.

use std::env;
use std::path::{Path, PathBuf};
use std::process::Command;

fn main() {
    let here = PathBuf::from(env::var("CARGO_MANIFEST_DIR").expect("set by cargo"));
    println!("cargo:rerun-if-changed=build.rs");

    let version = Command::new(env::var("RUSTC").expect("set by cargo"))
        .arg("--version")
        .output()
        .expect("a compiler");
    let version = String::from_utf8_lossy(&version.stdout);
    println!("cargo:rustc-env=BENCH_RUSTC={}", version.trim());

    println!("cargo:rustc-check-cfg=cfg(berkeley, lmdb, rocksdb)");
    if is_installed("db.h", "libdb-5.3.so") && compile_berkeley(&here) {
        println!("cargo:rustc-cfg=berkeley");
        println!("cargo:rustc-link-lib=db-5.3");
    }
    if is_installed("lmdb.h", "liblmdb.so") {
        println!("cargo:rustc-cfg=lmdb");
        println!("cargo:rustc-link-lib=lmdb");
    }
    if is_installed("rocksdb/c.h", "librocksdb.so") {
        println!("cargo:rustc-cfg=rocksdb");
        println!("cargo:rustc-link-lib=rocksdb");
    }
}

/// Header and library where Debian puts them.
fn is_installed(header: &str, library: &str) -> bool {
    let header = Path::new("/usr/include").join(header);
    println!("cargo:rerun-if-changed={}", header.display());
    let folders = ["/usr/lib/x86_64-linux-gnu", "/usr/lib"];
    let has = |folder: &&str| Path::new(*folder).join(library).exists();
    header.exists() && folders.iter().any(has)
}

/// Berkeley DB's calls are pointers in a struct that its header alone knows.
fn compile_berkeley(here: &Path) -> bool {
    let source = here.join("src/rivals/berkeley.c");
    println!("cargo:rerun-if-changed={}", source.display());
    let out = PathBuf::from(env::var("OUT_DIR").expect("set by cargo"));
    let object = out.join("berkeley.o");
    let done = |command: &mut Command| command.status().is_ok_and(|status| status.success());
    let compiled = done(
        Command::new("cc")
            .args(["-O2", "-c", "-o"])
            .arg(&object)
            .arg(&source),
    );
    let archived = compiled
        && done(
            Command::new("ar")
                .arg("rcs")
                .arg(out.join("libberkeley.a"))
                .arg(&object),
        );
    if archived {
        println!("cargo:rustc-link-search=native={}", out.display());
        println!("cargo:rustc-link-lib=static=berkeley");
    }
    archived
}
