//! `include/mortxizal.h` with the archive, from C and from C++.

use std::env;
use std::mem::{offset_of, size_of};
use std::path::{Path, PathBuf};
use std::process::Command;

use mortxizal::raw;

const HERE: &str = env!("CARGO_MANIFEST_DIR");

#[derive(Clone, Copy)]
enum Language {
    C,
    Cpp,
}

/// Compiles a program without a warning and links the archive.
fn compile(language: Language, source: &str, program: &str) -> PathBuf {
    let (variable, usual, words) = match language {
        Language::C => ("CC", "cc", ["-x", "c", "-std=c99"]),
        Language::Cpp => ("CXX", "c++", ["-x", "c++", "-std=c++11"]),
    };
    let compiler = env::var(variable).unwrap_or_else(|_| usual.to_string());
    let program = Path::new(env!("CARGO_TARGET_TMPDIR")).join(program);
    let output = Command::new(&compiler)
        .args(words)
        .args(["-O2", "-Wall", "-Wextra", "-Wpedantic", "-Werror", "-I"])
        .arg(Path::new(HERE).join("../../include"))
        .arg(Path::new(HERE).join(source))
        .args(["-x", "none", env!("MORTXIZAL_ARCHIVE"), "-o"])
        .arg(&program)
        .output()
        .unwrap_or_else(|error| panic!("{compiler}: {error}"));
    let said = String::from_utf8_lossy(&output.stderr);
    assert!(output.status.success(), "{compiler}: {said}");
    program
}

/// What the program writes.
fn run(program: &Path) -> String {
    let output = Command::new(program).output().unwrap();
    assert!(output.status.success(), "{}", program.display());
    String::from_utf8(output.stdout).unwrap()
}

/// What an example should write, in whichever language.
fn expected(example: &str) -> String {
    let file = format!("examples/{example}.out");
    std::fs::read_to_string(Path::new(HERE).join(file)).unwrap()
}

#[test]
fn first_program_in_c() {
    let program = compile(Language::C, "examples/first.c", "first_c");
    assert_eq!(run(&program), expected("first"));
}

#[test]
fn first_program_in_cpp() {
    let program = compile(Language::Cpp, "examples/first.c", "first_cpp");
    assert_eq!(run(&program), expected("first"));
}

#[test]
fn cards_in_c() {
    let program = compile(Language::C, "examples/card.c", "card_c");
    assert_eq!(run(&program), expected("card"));
}

#[test]
fn cards_in_cpp() {
    let program = compile(Language::Cpp, "examples/card.c", "card_cpp");
    assert_eq!(run(&program), expected("card"));
}

/// The sizes are checked as it is compiled. What it writes are the interface's
/// numbers, of the header and of the library.
#[test]
fn sizes_and_interface_in_c_and_cpp() {
    let c = compile(Language::C, "tests/layout.c", "layout_c");
    let cpp = compile(Language::Cpp, "tests/layout.c", "layout_cpp");
    let both = format!("{0} {0}\n", raw::INTERFACE);
    assert_eq!((run(&c), run(&cpp)), (both.clone(), both));
}

#[test]
fn sizes_and_interface_in_rust() {
    assert_eq!(raw::interface(), raw::INTERFACE);
    assert_eq!(size_of::<raw::Answer>(), 32);
    assert_eq!(offset_of!(raw::Answer, status), 0);
    assert_eq!(offset_of!(raw::Answer, number), 4);
    assert_eq!(offset_of!(raw::Answer, reads), 8);
    assert_eq!(offset_of!(raw::Answer, batch), 12);
    assert_eq!(offset_of!(raw::Answer, value), 16);
    assert_eq!(offset_of!(raw::Answer, comparisons), 24);
    assert_eq!(size_of::<raw::Card>(), 40);
}

#[path = "../examples/first.rs"]
mod first;

#[test]
fn first_program_in_rust() {
    let mut output = Vec::new();
    first::run(&mut output).unwrap();
    assert_eq!(String::from_utf8(output).unwrap(), expected("first"));
}

#[path = "../examples/card.rs"]
mod card;

#[test]
fn cards_in_rust() {
    let mut output = Vec::new();
    card::run(&mut output).unwrap();
    assert_eq!(String::from_utf8(output).unwrap(), expected("card"));
}
