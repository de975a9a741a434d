//! Whole sessions: document 01's, every refusal, counts, drops, comparisons, the ends of input and output.

use programs::{compare, run, run_to_full_disk};
use std::fmt::Display;

const INPUT: &[u8] = include_bytes!("../../../crates/relay_session/stdin");
const OUTPUT: &[u8] = include_bytes!("../../../crates/relay_session/stdout");

const FORMAT: &str =
    "(format (parts 0) (page 64) (pages 1) (kept 2) (bits 64) (hashes 3) (list 1))";

#[test]
fn the_worked_session() {
    assert_eq!(run(INPUT), OUTPUT);
    compare(INPUT);
}

#[test]
fn no_input() {
    assert_eq!(run(b""), b"");
}

#[test]
fn a_last_line_without_a_byte_10() {
    let cut = INPUT.strip_suffix(b"\n").unwrap();
    assert_eq!(run(cut), OUTPUT);
    assert_eq!(run(b"(get 1)"), b"(refused 11 0)\n");
    assert_eq!(run(b"x"), b"(bad)\n");
}

#[test]
fn empty_lines_are_bad() {
    assert_eq!(run(b"\n"), b"(bad)\n");
    assert_eq!(
        run(b"\n\n(get 1)\n\n"),
        b"(bad)\n(bad)\n(refused 11 0)\n(bad)\n"
    );
}

/// The lines of one session are answered so, by both sides.
fn check<L: Display>(lines: impl IntoIterator<Item = (L, &'static str)>) {
    let (mut input, mut output) = (String::new(), String::new());
    for (line, answer) in lines {
        input += &format!("{line}\n");
        output += &format!("{answer}\n");
    }
    assert_eq!(String::from_utf8(run(input.as_bytes())).unwrap(), output);
    compare(input.as_bytes());
}

/// The refusals that a session can come to: its calls leave no damaged page or
/// count behind, it has no view, and 2^32 flushes are out of reach.
#[test]
fn every_refusal() {
    let format = |n: [u32; 7]| {
        format!(
            "(format (parts {}) (page {}) (pages {}) (kept {}) (bits {}) (hashes {}) (list {}))",
            n[0], n[1], n[2], n[3], n[4], n[5], n[6]
        )
    };
    let lines = [
        ("(put 1 1)".into(), "(refused 11 0)"),
        ("(put 1 0)".into(), "(refused 11 0)"),
        ("(get 1)".into(), "(refused 11 0)"),
        ("(del 1)".into(), "(refused 11 0)"),
        ("(flush 0)".into(), "(refused 11 0)"),
        ("(count 0)".into(), "(refused 11 0)"),
        ("(drop 0)".into(), "(refused 11 0)"),
        (format([9, 64, 1, 2, 64, 3, 1]), "(refused 1 0)"),
        (format([0, 32, 1, 2, 64, 3, 1]), "(refused 1 0)"),
        (format([0, 64, 3, 2, 64, 3, 1]), "(refused 1 0)"),
        (format([0, 64, 1, 0, 64, 3, 1]), "(refused 1 0)"),
        (format([0, 64, 1, 33, 64, 3, 1]), "(refused 1 0)"),
        (format([0, 64, 1, 2, 65, 3, 1]), "(refused 1 0)"),
        (format([0, 64, 1, 2, 64, 9, 1]), "(refused 1 0)"),
        (format([0, 64, 1, 2, 64, 3, 1025]), "(refused 1 0)"),
        (format([8, 4096, 64, 32, 65536, 8, 1024]), "(refused 2 0)"),
        (format([0, 64, 64, 32, 64, 3, 1]), "(refused 3 0)"),
        (FORMAT.into(), "(ok 0)"),
        ("(flush 0)".into(), "(refused 15 0)"),
        ("(flush 1)".into(), "(refused 4 0)"),
        ("(flush 4294967295)".into(), "(refused 4 0)"),
        ("(count 1)".into(), "(refused 4 0)"),
        ("(drop 1)".into(), "(refused 4 0)"),
        ("(drop 0)".into(), "(refused 23 0)"),
        ("(put 5 0)".into(), "(refused 21 0)"),
        ("(put 1 10)".into(), "(ok 0)"),
        ("(put 1 0)".into(), "(refused 21 0)"),
        ("(put 2 20)".into(), "(ok 0)"),
        ("(put 3 30)".into(), "(ok 0)"),
        ("(put 5 0)".into(), "(refused 21 0)"),
        ("(get 1)".into(), "(found 10 0 1)"),
        ("(flush 0)".into(), "(ok 1)"),
        ("(del 1)".into(), "(ok 0)"),
        ("(del 2)".into(), "(refused 14 0)"),
        ("(del 1)".into(), "(ok 0)"),
        ("(get 1)".into(), "(none 0 0)"),
        ("(get 2)".into(), "(found 20 1 2)"),
    ];
    check(lines);
}

/// Puts, a put in place, a flush by a full page, dels in the buffer and in a
/// batch, and the flush that pushes the first batch out.
#[test]
fn counts() {
    let lines = [
        (FORMAT, "(ok 0)"),
        ("(count 0)", "(ok 0)"),
        ("(put 1 10)", "(ok 0)"),
        ("(put 2 20)", "(ok 0)"),
        ("(put 2 21)", "(ok 0)"),
        ("(count 0)", "(ok 2)"),
        ("(put 3 30)", "(ok 0)"),
        ("(put 4 40)", "(ok 1)"),
        ("(put 5 50)", "(ok 0)"),
        ("(count 0)", "(ok 5)"),
        ("(del 4)", "(ok 0)"),
        ("(count 0)", "(ok 4)"),
        ("(del 1)", "(ok 0)"),
        ("(count 0)", "(ok 4)"),
        ("(flush 0)", "(ok 1)"),
        ("(count 0)", "(ok 4)"),
        ("(put 6 60)", "(ok 0)"),
        ("(flush 0)", "(ok 1)"),
        ("(count 0)", "(ok 2)"),
    ];
    check(lines);
}

/// A batch of three keys and one of one. The first drop frees the one place of
/// the list, and the flush behind it pushes nothing out; the next one does.
#[test]
fn drops() {
    let lines = [
        (FORMAT, "(ok 0)"),
        ("(put 1 10)", "(ok 0)"),
        ("(put 2 20)", "(ok 0)"),
        ("(put 3 30)", "(ok 0)"),
        ("(put 4 40)", "(ok 1)"),
        ("(flush 0)", "(ok 1)"),
        ("(del 2)", "(ok 0)"),
        ("(del 4)", "(refused 14 0)"),
        ("(drop 0)", "(ok 0)"),
        ("(count 0)", "(ok 1)"),
        ("(get 1)", "(none 0 0)"),
        ("(get 2)", "(none 0 0)"),
        ("(get 4)", "(found 40 1 1)"),
        ("(del 4)", "(ok 0)"),
        ("(put 4 41)", "(ok 0)"),
        ("(flush 0)", "(ok 1)"),
        ("(count 0)", "(ok 2)"),
        ("(put 0 70)", "(ok 0)"),
        ("(flush 0)", "(ok 1)"),
        ("(count 0)", "(ok 2)"),
        ("(drop 0)", "(ok 0)"),
        ("(get 4)", "(none 0 0)"),
        ("(get 0)", "(found 70 1 1)"),
        ("(drop 0)", "(ok 0)"),
        ("(get 0)", "(none 0 0)"),
        ("(drop 0)", "(refused 23 0)"),
        ("(count 0)", "(ok 0)"),
    ];
    check(lines);
}

/// The entries compared are the last number of found and none: in the buffer page,
/// then in a page of each batch whose filter passes. That of the batch of 4, 5 and 6
/// passes 260 and 262 too, and both filters pass 262.
#[test]
fn comparisons() {
    let lines = [
        (FORMAT, "(ok 0)"),
        ("(get 1)", "(none 0 0)"),
        ("(put 1 10)", "(ok 0)"),
        ("(put 260 20)", "(ok 0)"),
        ("(put 3 30)", "(ok 0)"),
        ("(get 1)", "(found 10 0 1)"),
        ("(get 3)", "(found 30 0 3)"),
        ("(get 9)", "(none 0 3)"),
        ("(flush 0)", "(ok 1)"),
        ("(put 4 40)", "(ok 0)"),
        ("(put 5 50)", "(ok 0)"),
        ("(put 6 60)", "(ok 0)"),
        ("(flush 0)", "(ok 1)"),
        ("(get 6)", "(found 60 1 3)"),
        ("(put 7 70)", "(ok 0)"),
        ("(get 6)", "(found 60 1 4)"),
        ("(get 260)", "(found 20 2 6)"),
        ("(get 262)", "(none 2 7)"),
        ("(get 8)", "(none 0 1)"),
        ("(del 260)", "(ok 0)"),
        ("(get 260)", "(none 0 0)"),
    ];
    check(lines);
}

/// Short lines with long answers: the room for answers ends before the input does.
#[test]
fn more_answers_than_room() {
    let largest = u64::MAX;
    let mut input = format!("{FORMAT}\n(put 1 {largest})\n(flush 0)\n");
    let mut output = String::from("(ok 0)\n(ok 0)\n(ok 1)\n");
    for _ in 0..50_000 {
        input.push_str("(get 1)\n");
        output.push_str(&format!("(found {largest} 1 1)\n"));
    }
    assert!(run(input.as_bytes()) == output.as_bytes());
}

#[test]
fn a_write_that_fails_ends_the_session() {
    run_to_full_disk(b"(get 1)\n");
    run_to_full_disk(b"(get 1)");
    run_to_full_disk(&b"(get 1)\n".repeat(1_000_000));
}
