//! Runs the built session program, as a user does or in pieces of input that
//! it reads one at a time, and compares what it prints with the index in
//! plain Rust.

#![forbid(unsafe_code)]
#![warn(missing_docs)]

pub mod random;

use std::io::{Read, Write};
use std::os::fd::OwnedFd;
use std::os::unix::net::UnixDatagram;
use std::path::{Path, PathBuf};
use std::process::{Child, Command, Stdio};
use std::thread;

use reference::session::answer_text;

/// What the program's input buffer has room for beside the longest line that it holds.
pub const LARGEST_PIECE: usize = 65_536 - 256;

/// The path of a built program.
pub fn program(name: &str) -> PathBuf {
    let path = Path::new(env!("CARGO_MANIFEST_DIR"))
        .join("../../target/bin")
        .join(name);
    assert!(
        path.is_file(),
        "{} is not built: run ./session --build first",
        path.display()
    );
    path
}

fn session(input: impl Into<Stdio>, output: impl Into<Stdio>) -> Child {
    Command::new(program("relay_session"))
        .stdin(input)
        .stdout(output)
        .spawn()
        .expect("the program starts")
}

fn finished(mut child: Child) {
    assert!(child.wait().expect("the program ends").success());
}

/// What the program prints for an input that comes by a pipe.
pub fn run(input: &[u8]) -> Vec<u8> {
    let mut child = session(Stdio::piped(), Stdio::piped());
    let mut to = child.stdin.take().unwrap();
    let mut from = child.stdout.take().unwrap();
    let mut printed = Vec::new();
    thread::scope(|scope| {
        scope.spawn(move || to.write_all(input).expect("the program reads all input"));
        from.read_to_end(&mut printed).unwrap();
    });
    finished(child);
    printed
}

/// What the program prints where each of its reads gets exactly one of the
/// pieces: a socket hands over one message a read, and an empty one ends the
/// input.
pub fn run_pieces<'a>(pieces: impl IntoIterator<Item = &'a [u8]> + Send) -> Vec<u8> {
    let (to, input) = UnixDatagram::pair().unwrap();
    let mut child = session(Stdio::from(OwnedFd::from(input)), Stdio::piped());
    let mut from = child.stdout.take().unwrap();
    let mut printed = Vec::new();
    thread::scope(|scope| {
        scope.spawn(move || {
            for piece in pieces {
                assert!(!piece.is_empty() && piece.len() <= LARGEST_PIECE);
                assert_eq!(to.send(piece).unwrap(), piece.len());
            }
            to.send(&[]).unwrap();
        });
        from.read_to_end(&mut printed).unwrap();
    });
    finished(child);
    printed
}

/// Runs the program with its output into a file that takes none.
pub fn run_to_full_disk(input: &[u8]) {
    let full = std::fs::OpenOptions::new()
        .write(true)
        .open("/dev/full")
        .unwrap();
    let mut child = session(Stdio::piped(), full);
    let mut to = child.stdin.take().unwrap();
    // The program stops before it has read all of a long input.
    let _ = to.write_all(input);
    drop(to);
    finished(child);
}

/// The first line in which two outputs differ.
pub fn difference(printed: &[u8], expected: &[u8]) -> Option<String> {
    if printed == expected {
        return None;
    }
    let lines = |text: &[u8]| -> Vec<String> {
        text.split(|&byte| byte == b'\n')
            .map(|line| String::from_utf8_lossy(line).into())
            .collect()
    };
    let (printed, expected) = (lines(printed), lines(expected));
    let same = printed
        .iter()
        .zip(&expected)
        .take_while(|(a, b)| a == b)
        .count();
    let line = |text: &[String]| text.get(same).cloned();
    Some(format!(
        "line {}: printed {:?}, expected {:?}",
        same + 1,
        line(&printed),
        line(&expected)
    ))
}

/// Compares the program with the index in plain Rust on one input.
#[track_caller]
pub fn compare(input: &[u8]) {
    if let Some(difference) = difference(&run(input), answer_text(input).as_bytes()) {
        panic!("{difference}");
    }
}

/// The same, with the input in pieces.
#[track_caller]
pub fn compare_pieces(pieces: &[&[u8]]) {
    let expected = answer_text(&pieces.concat());
    if let Some(difference) = difference(&run_pieces(pieces.iter().copied()), expected.as_bytes()) {
        panic!(
            "{difference}, in pieces of {:?}",
            pieces.iter().map(|piece| piece.len()).collect::<Vec<_>>()
        );
    }
}
