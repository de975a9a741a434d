//! Lines that are no form, and lines of any length.

use programs::{compare, run};

const FORMAT: &str =
    "(format (parts 0) (page 64) (pages 1) (kept 2) (bits 64) (hashes 3) (list 1))";

const BAD: &[&str] = &[
    "",
    " ",
    "(",
    ")",
    "()",
    "put 1 10",
    "(put 1 10",
    "(put 1 10))",
    "(put 1 10) ",
    " (put 1 10)",
    "(put  1 10)",
    "(put 1  10)",
    "(put 1 10 )",
    "(put 1)",
    "(put 1 10 100)",
    "(put 01 10)",
    "(put 1 00)",
    "(put -1 10)",
    "(put +1 10)",
    "(put 0x1 10)",
    "(put 1 18446744073709551616)",
    "(put 18446744073709551616 1)",
    "(put 99999999999999999999 1)",
    "(put 1,10)",
    "(PUT 1 10)",
    "(put\t1 10)",
    "(put 1 10)\r",
    "(get)",
    "(get )",
    "(get 1 2)",
    "(get 1.0)",
    "(get a)",
    "(del 1 )",
    "(delete 1)",
    "(flush)",
    "(flush 4294967296)",
    "(flush 00)",
    "(count)",
    "(count 0 0)",
    "(count 00)",
    "(count 4294967296)",
    "(counts 0)",
    "(drop)",
    "(drop )",
    "(drop 0 0)",
    "(drop 00)",
    "(drop -1)",
    "(drop 4294967296)",
    "(drops 0)",
    "(DROP 0)",
    "(view 0 0 0)",
    "(text 0)",
    "(format)",
    "(format (parts 0) (page 64) (pages 1) (kept 2) (bits 64) (hashes 3))",
    "(format (parts 0) (page 64) (pages 1) (kept 2) (bits 64) (hashes 3) (list 1)",
    "(format (parts 0) (page 64) (pages 1) (kept 2) (bits 64) (hashes 3) (list 1)) ",
    "(format (page 64) (parts 0) (pages 1) (kept 2) (bits 64) (hashes 3) (list 1))",
    "(format (parts 0)(page 64) (pages 1) (kept 2) (bits 64) (hashes 3) (list 1))",
    "(format (parts 4294967296) (page 64) (pages 1) (kept 2) (bits 64) (hashes 3) (list 1))",
    "(format (parts 0) (page 064) (pages 1) (kept 2) (bits 64) (hashes 3) (list 1))",
    "(format 0 64 1 2 64 3 1)",
    "\u{fc}",
    "\0",
    "(get \0)",
];

#[test]
fn bad_lines_do_nothing() {
    let mut input = format!("{FORMAT}\n(put 1 10)\n");
    let mut output = String::from("(ok 0)\n(ok 0)\n");
    for line in BAD {
        input.push_str(&format!("{line}\n(get 1)\n"));
        output.push_str("(bad)\n(found 10 0 1)\n");
    }
    assert_eq!(String::from_utf8(run(input.as_bytes())).unwrap(), output);
    compare(input.as_bytes());
}

#[test]
fn every_byte_alone_and_in_a_form() {
    let mut input = format!("{FORMAT}\n").into_bytes();
    for byte in 0..=255 {
        input.extend([byte, b'\n']);
        for place in 0..b"(put 1 10)".len() {
            let mut line = b"(put 1 10)\n".to_vec();
            line[place] = byte;
            input.extend(line);
        }
    }
    compare(&input);
}

/// The longest lines that say a call.
#[test]
fn the_longest_forms() {
    let most = u32::MAX;
    let wide = u64::MAX;
    let format = format!("(format (parts {most}) (page {most}) (pages {most}) (kept {most}) (bits {most}) (hashes {most}) (list {most}))");
    assert_eq!(format.len(), 138);
    let put = format!("(put {wide} {wide})");
    assert_eq!(put.len(), 47);
    let input = format!(
        "{format}\n{FORMAT}\n{put}\n(get {wide})\n(flush {most})\n(count {most})\n(drop {most})\n"
    );
    let refused = "(refused 4 0)\n".repeat(3);
    let output = format!("(refused 1 0)\n(ok 0)\n(ok 0)\n(found {wide} 0 1)\n{refused}");
    assert_eq!(run(input.as_bytes()), output.as_bytes());
    compare(input.as_bytes());
}

/// A long line in the middle and at the end, with and without a byte 10.
fn long_line(line: &[u8]) {
    let around = |end: &[u8]| {
        [
            FORMAT.as_bytes(),
            b"\n(put 1 10)\n",
            line,
            b"\n(get 1)\n",
            line,
            end,
        ]
        .concat()
    };
    for end in [&b""[..], b"\n", b"\n(get 1)"] {
        let input = around(end);
        let mut output = b"(ok 0)\n(ok 0)\n(bad)\n(found 10 0 1)\n(bad)\n".to_vec();
        if end.len() > 1 {
            output.extend(b"(found 10 0 1)\n");
        }
        assert_eq!(run(&input), output, "a line of {} bytes", line.len());
    }
}

#[test]
fn lines_of_every_length_near_a_limit() {
    let near = |n: usize| n - 2..=n + 2;
    for n in near(138)
        .chain(near(256))
        .chain(near(65_280))
        .chain(near(65_536))
        .chain(near(131_072))
    {
        long_line(&b"x".repeat(n));
        long_line(&[&b"(put 1 "[..], &b"9".repeat(n - 8), b")"].concat());
    }
}

#[test]
fn lines_longer_than_any_buffer() {
    let megabytes = 3 << 20;
    long_line(&b"y".repeat(megabytes));
    // It begins like a good form, is one but for what follows, or ends like one.
    long_line(&[&b"(put 1 "[..], &b"1".repeat(megabytes)].concat());
    long_line(&[&b"(put 1 11)"[..], &b" ".repeat(megabytes)].concat());
    long_line(&[&b" ".repeat(megabytes), &b"(put 1 11)"[..]].concat());
    long_line(&b"(put 1 11)".repeat(megabytes / 10));
}
